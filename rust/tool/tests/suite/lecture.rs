//! The pages of the command `lecture`: their structure, and their numbers, which the library computes here a second time.

use crate::desk::Desk;
use crate::markup::{self, Element};
use dimkhoros::{
    Instance, OrProver, OrRound, PLACES, Pair, Patterns, Places, Plan, Prover, ROOT, Round, Side,
    places,
};
use std::collections::BTreeSet;
use std::env;
use std::fs;
use std::path::Path;

/// The commands that make the sheets, those of 01's calculator pages among them.
const SHEETS: &str = "\
dimkhoros make schnorr m=23 q=11 h=2 x=7 -o a.bin
dimkhoros make okamoto m=23 q=11 h=2,3 z=18 -o d.bin
dimkhoros make diffie-hellman m=23 q=11 h=2,16 z=13,18 -o e.bin
dimkhoros make root m=35 e=5 z=32 -o g.bin
dimkhoros make root m=35 e=11 K=11 z=18 -o root.bin
dimkhoros make equality m=23 q=11 h=2,3 z=13,13 -o none.bin
dimkhoros make schnorr m=4294967087 q=2147483543 K=65536 h=4 x=1234567890 -o large.bin";

/// A folder with the sheets.
fn desk(name: &str) -> Desk {
    let desk = Desk::new(name);
    let printed = desk.print(SHEETS);
    assert_eq!(printed.lines().count(), 7, "{printed}");
    desk
}

/// The page that these words make.
fn page(desk: &Desk, words: &str) -> String {
    let printed = desk.print(&format!("dimkhoros lecture {words} -o page.html --force"));
    assert!(printed.starts_with("page.html has "), "{words}: {printed}");
    fs::read_to_string(desk.folder.join("page.html")).unwrap()
}

/// The page that these words make, read.
fn read(desk: &Desk, words: &str) -> Element {
    markup::read(&page(desk, words)).unwrap_or_else(|why| panic!("{words}: {why}"))
}

/// The lines of text in the pictures of a section.
fn lines(section: &Element) -> Vec<String> {
    section.named("text").iter().map(|line| line.text()).collect()
}

/// The first values of places, as they are printed.
fn tuple(values: &Places, count: usize) -> String {
    match count {
        1 => values[0].to_string(),
        _ => format!(
            "({})",
            values[..count].iter().map(u32::to_string).collect::<Vec<_>>().join(", ")
        ),
    }
}

/// A sheet of a pattern of the shipped file.
fn sheet(pattern: u32, numbers: [u32; 3], values: &[u32], statement: &[u32]) -> Instance {
    let [modulus, order, challenges] = numbers;
    let plan = Plan { pattern, modulus, order, challenges, values, statement };
    Instance::from_pattern(&Patterns::shipped(), &plan).unwrap()
}

/// Page A's sheet.
fn sheet_a() -> Instance {
    sheet(1, [23, 11, 11], &[2], &[13])
}

/// Page D's sheet.
fn sheet_d() -> Instance {
    sheet(2, [23, 11, 11], &[2, 3], &[18])
}

/// Page G's sheet.
fn sheet_g() -> Instance {
    sheet(0, [35, 5, 5], &[], &[32])
}

/// The sheet of the pair's second side.
fn sheet_root() -> Instance {
    sheet(0, [35, 11, 11], &[], &[18])
}

/// Peggy's round.
fn honest(sheet: &Instance, nonce: Places, challenge: u32, witness: Places) -> Round {
    let (peggy, commitment) = Prover::new().commit(sheet, &nonce).unwrap();
    let (_, response) = peggy.respond(sheet, challenge, &witness).unwrap();
    Round { commitment, challenge, response }
}

/// A round as it is printed.
fn printed(sheet: &Instance, round: &Round) -> String {
    let header = sheet.values().header;
    let (t, r) = (
        tuple(&round.commitment, header.rows as usize),
        tuple(&round.response, header.columns as usize),
    );
    format!("({t}, {}, {r})", round.challenge)
}

/// All coordinates of a sheet with one column.
fn coordinates(sheet: &Instance) -> Vec<Places> {
    let header = sheet.values().header;
    let all = if header.kind == ROOT { header.modulus } else { header.order };
    (0..all)
        .map(|value| places([value]))
        .filter(|value| Prover::new().commit(sheet, value).is_ok())
        .collect()
}

/// The rows of the pictures of two lists: choice, round, round, choice. The pictures of several sections are taken together.
fn rows(page: &Element) -> Vec<[String; 4]> {
    let sections = page.named("section");
    let lists =
        sections.iter().filter(|section| section.attribute("id").unwrap().starts_with("rounds"));
    let lines: Vec<String> = lists.flat_map(|section| lines(section)).collect();
    let heads = ["nonce", "honest", "simulated", "response", "round", "k", "r"];
    let is_head = |line: &String| {
        heads.contains(&line.as_str())
            || line.starts_with("holder of")
            || line.contains(|c: char| "tkrc".contains(c))
    };
    let cells: Vec<String> = lines.into_iter().filter(|line| !is_head(line)).collect();
    assert!(!cells.is_empty() && cells.len() % 4 == 0, "{cells:?}");
    cells.chunks(4).map(|row| row.to_vec().try_into().unwrap()).collect()
}

/// The ids of the sections of a page.
fn sections(page: &Element) -> Vec<String> {
    page.named("section")
        .iter()
        .map(|section| section.attribute("id").unwrap().to_string())
        .collect()
}

/// The words of a page of each kind, and its sections.
const PAGES: [(&str, &[&str]); 7] = [
    ("a.bin", &["statement", "run", "extractor", "rounds", "grid"]),
    ("d.bin", &["statement", "run", "extractor", "rounds", "witnesses"]),
    ("e.bin", &["statement", "run", "extractor", "rounds", "grid"]),
    ("g.bin", &["statement", "run", "extractor", "rounds", "grid"]),
    ("none.bin", &["statement", "run", "answers", "grid"]),
    ("large.bin x=1234567890", &["statement", "run", "extractor", "rounds"]),
    (
        "a.bin root.bin",
        &["statement", "run-0", "run-1", "two-rounds", "extractor-0", "extractor-1", "rounds"],
    ),
];

#[test]
fn every_page_is_well_formed_and_stands_alone() {
    let desk = desk("lecture structure");
    for (words, expected) in PAGES {
        let text = page(&desk, words);
        let page = markup::read(&text).unwrap_or_else(|why| panic!("{words}: {why}"));
        assert_eq!(sections(&page), expected, "{words}");
        let ids: Vec<&str> =
            page.all().iter().filter_map(|element| element.attribute("id")).collect();
        assert_eq!(
            ids.iter().collect::<BTreeSet<_>>().len(),
            ids.len(),
            "{words}: an id is there twice"
        );
        for outside in
            ["http", "<script", "src=", "href", "url(", "@import", "@font-face", "<link", "<img"]
        {
            assert!(!text.contains(outside), "{words}: {outside}");
        }
        assert_eq!(page.named("h1").len(), 1, "{words}");
        assert_eq!(page.named("html")[0].attribute("lang"), Some("en"));
    }
}

#[test]
fn pictures_and_tables_say_what_they_show() {
    let desk = desk("lecture names");
    for (words, _) in PAGES {
        let page = read(&desk, words);
        page.named("svg").into_iter().for_each(check_picture);
        let tables = page.named("table");
        assert!(tables.iter().all(|table| !table.named("caption")[0].text().is_empty()), "{words}");
        let heads = page.named("th");
        assert!(heads.iter().all(|head| head.attribute("scope").is_some()), "{words}");
        let heading =
            |section: &Element| section.id(section.attribute("aria-labelledby").unwrap()).text();
        assert!(
            page.named("section").into_iter().all(|section| !heading(section).is_empty()),
            "{words}"
        );
    }
}

/// A picture has a title, a description and real text.
fn check_picture(picture: &Element) {
    let names = picture.attribute("aria-labelledby").unwrap();
    let told: Vec<String> = names.split(' ').map(|id| picture.id(id).text()).collect();
    assert!(told.len() == 2 && told.iter().all(|text| text.len() > 9), "{told:?}");
    assert_eq!(picture.attribute("role"), Some("img"));
    assert!(picture.named("path").is_empty() && !picture.named("text").is_empty());
}

/// These lines are among others.
fn has_lines<const COUNT: usize>(found: &[String], expected: [String; COUNT]) {
    for line in expected {
        assert!(found.contains(&line), "{line} is not in {found:?}");
    }
}

/// The run and the extractor show the rounds of a sheet that this nonce and witness make.
fn shows_run(
    page: &Element,
    sheet: &Instance,
    nonce: Places,
    witness: Places,
    challenges: [u32; 2],
) {
    let rounds = challenges.map(|challenge| honest(sheet, nonce, challenge, witness));
    let [rows, columns] =
        [sheet.values().header.rows, sheet.values().header.columns].map(|count| count as usize);
    let run = lines(page.id("run"));
    assert!(sheet.judge(&rounds[0]).unwrap().is_accepted());
    has_lines(
        &run,
        [
            format!("knows x = {}", tuple(&witness, columns)),
            format!("chooses the nonce k = {}", tuple(&nonce, columns)),
            format!("t = {}", tuple(&rounds[0].commitment, rows)),
            format!("c = {}", challenges[0]),
            format!("r = {}", tuple(&rounds[0].response, columns)),
            "equal sides: accepted".to_string(),
        ],
    );
    let image = Prover::new().commit(sheet, &rounds[0].response).unwrap().1;
    for value in &image[..rows] {
        let is_side =
            |line: &&String| line.starts_with("[r]") || line.starts_with('t') && line.contains('z');
        let sides =
            run.iter().filter(is_side).filter(|line| line.ends_with(&format!(" = {value}")));
        assert!(sides.count() >= 2, "both sides with {value} are not in {run:?}");
    }
    shows_extractor(page, sheet, &rounds);
}

/// The extractor shows two rounds of a sheet and the witness that they give away.
fn shows_extractor(page: &Element, sheet: &Instance, rounds: &[Round; 2]) {
    let [rows, columns] =
        [sheet.values().header.rows, sheet.values().header.columns].map(|count| count as usize);
    has_lines(
        &lines(page.id("extractor")),
        [
            format!("t = {}", tuple(&rounds[0].commitment, rows)),
            format!("c = {}", rounds[0].challenge),
            format!("c′ = {}", rounds[1].challenge),
            format!("r = {}", tuple(&rounds[0].response, columns)),
            format!("r′ = {}", tuple(&rounds[1].response, columns)),
        ],
    );
    let extracted = sheet.extract(&rounds[0], &rounds[1]).unwrap();
    assert_eq!(extracted, sheet.extract(&rounds[1], &rounds[0]).unwrap());
    let steps = page.id("extractor").named("ol")[0].text();
    let witness = tuple(&extracted, columns);
    let inner = witness.trim_matches(['(', ')']);
    assert!(steps.contains(&format!("[{inner}] = ")), "{steps}");
    assert!(
        steps.contains(&format!("= {} = z", tuple(&sheet.values().statement, rows))),
        "{steps}"
    );
}

/// Both lists of a page are all rounds of a sheet with one column, as the library makes them.
fn shows_lists(page: &Element, sheet: &Instance, witness: Places, challenge: u32) {
    let all = coordinates(sheet);
    let honest: BTreeSet<String> = all
        .iter()
        .map(|nonce| printed(sheet, &honest(sheet, *nonce, challenge, witness)))
        .collect();
    let simulated = |response: &Places| {
        let commitment = sheet.simulate(challenge, response).unwrap();
        printed(sheet, &Round { commitment, challenge, response: *response })
    };
    let simulated: BTreeSet<String> = all.iter().map(simulated).collect();
    let rows = rows(page);
    assert_eq!(rows.len(), all.len());
    assert_eq!(rows.iter().map(|row| row[1].clone()).collect::<BTreeSet<_>>(), honest);
    assert_eq!(rows.iter().map(|row| row[2].clone()).collect::<BTreeSet<_>>(), simulated);
    for [nonce, honest, simulated, response] in rows {
        assert_eq!(honest, simulated);
        let [nonce, response] = [nonce, response].map(|value| places([value.parse().unwrap()]));
        let made = self::honest(sheet, nonce, challenge, witness);
        assert_eq!((printed(sheet, &made), made.response), (honest, response));
    }
}

#[test]
fn pages_a_b_and_c_have_the_library_s_numbers() {
    let desk = desk("lecture of page A");
    for (words, nonce, challenges) in
        [("", 5, [3, 1]), (" k=8 c=10 c=4", 8, [10, 4]), (" c=1", 5, [1, 3])]
    {
        let page = read(&desk, &format!("a.bin{words} --show-witness"));
        shows_run(&page, &sheet_a(), places([nonce]), places([7]), challenges);
        shows_lists(&page, &sheet_a(), places([7]), challenges[0]);
    }
    let page = read(&desk, "a.bin k=5 c=3 c=1");
    assert!(rows(&page).contains(&["1", "(2, 3, 0)", "(2, 3, 0)", "0"].map(str::to_string)));
    assert!(page.id("statement").text().contains("x ↦ [x] = 2x mod 23"));
}

#[test]
fn the_grid_has_every_commitment_and_frames_those_of_the_run() {
    let desk = desk("lecture grid");
    let (page, sheet) = (read(&desk, "a.bin"), sheet_a());
    let grid = page.id("grid");
    let all = (0..11)
        .flat_map(|challenge| coordinates(&sheet_a()).into_iter().map(move |r| (challenge, r)));
    let mut expected: Vec<u32> = all.map(|(c, r)| sheet.simulate(c, &r).unwrap()[0]).collect();
    let cells = lines(grid).into_iter().filter_map(|line| line.parse().ok());
    let mut found: Vec<u32> = cells.collect();
    // The heads of the rows and columns stand there too.
    expected.extend((0..11).chain(0..11));
    expected.sort();
    found.sort();
    assert_eq!(found, expected);
    let marked =
        grid.named("rect").iter().filter(|cell| cell.attribute("class") == Some("marked")).count();
    assert_eq!(marked, 11, "the commitment answers each challenge once");
}

#[test]
fn page_d_has_the_same_round_of_all_witnesses() {
    let desk = desk("lecture of page D");
    let (page, sheet) = (read(&desk, "d.bin x=1,2 k=0,0 c=1 --show-witness"), sheet_d());
    shows_run(&page, &sheet, places([0, 0]), places([1, 2]), [1, 3]);
    let table: Vec<Vec<String>> = page.id("witnesses").named("tr")[1..]
        .iter()
        .map(|row| {
            row.all()
                .iter()
                .filter(|cell| cell.name.starts_with('t'))
                .map(|cell| cell.text())
                .collect()
        })
        .collect();
    assert!(
        table.contains(&["(6, 0)", "(6, 2)", "(1, 1, (1, 2))"].map(str::to_string).to_vec()),
        "{table:?}"
    );
    assert_eq!(table.len(), 11);
    for row in &table {
        assert_eq!(row[2], printed(&sheet, &honest(&sheet, places([0, 0]), 1, places([1, 2]))));
    }
}

#[test]
fn page_d_has_two_equal_squares_of_commitments() {
    let desk = desk("lecture squares");
    let (page, sheet) = (read(&desk, "d.bin x=1,2 c=1"), sheet_d());
    let numbers: Vec<u32> =
        lines(page.id("rounds")).iter().filter_map(|line| line.parse().ok()).collect();
    let squares: Vec<&[u32]> = numbers.chunks(22 + 121).collect();
    assert_eq!(squares.len(), 2);
    let all = (0..121).map(|place| places([place / 11, place % 11]));
    let of_responses =
        all.clone().map(|response| sheet.simulate(1, &response).unwrap()[0]).collect();
    let mut of_nonces: Vec<Round> =
        all.map(|nonce| honest(&sheet, nonce, 1, places([1, 2]))).collect();
    of_nonces.sort_by_key(|round| round.response);
    let of_nonces: Vec<u32> = of_nonces.iter().map(|round| round.commitment[0]).collect();
    for (square, mut expected) in squares.into_iter().zip([of_nonces, of_responses]) {
        // The cells stand behind the heads, the framed one last.
        let mut cells = square[22..].to_vec();
        let own = honest(&sheet, places([5, 3]), 1, places([1, 2]));
        let place = (own.response[0] * 11 + own.response[1]) as usize;
        assert_eq!(cells.pop(), Some(own.commitment[0]));
        expected.remove(place);
        assert_eq!(cells, expected);
    }
}

#[test]
fn pages_g_and_h_have_the_library_s_numbers() {
    let desk = desk("lecture of page G");
    for (words, nonce, challenges) in
        [("", 3, [3, 1]), (" k=3 c=1 c=3", 3, [1, 3]), (" k=12 c=4 c=0", 12, [4, 0])]
    {
        let page = read(&desk, &format!("g.bin{words} --show-witness"));
        shows_run(&page, &sheet_g(), places([nonce]), places([2]), challenges);
        shows_lists(&page, &sheet_g(), places([2]), challenges[0]);
    }
}

/// The whole text of a page before its section of an id, that of descriptions too.
fn before(page: &str, id: &str) -> String {
    page.split(&format!("<section id=\"{id}\"")).next().unwrap().replace('\u{a0}', " ")
}

#[test]
fn the_witness_is_hidden_until_the_extractor() {
    let desk = desk("lecture of a hidden witness");
    let words = "large.bin x=1234567890 k=987654321 c=40000 c=123";
    let secrets = ["1234567890", "987654321"];
    let hidden = page(&desk, words);
    for secret in secrets {
        assert!(!before(&hidden, "extractor").contains(secret), "{secret} stands there too early");
        assert!(hidden.contains(secret), "{secret} stands nowhere");
    }
    let shown = page(&desk, &format!("{words} --show-witness"));
    assert!(secrets.iter().all(|secret| before(&shown, "extractor").contains(secret)));
    assert_eq!(
        hidden.split_once("<section id=\"extractor\"").unwrap().1,
        shown.split_once("<section id=\"extractor\"").unwrap().1
    );
    let run = lines(read(&desk, "g.bin").id("run"));
    has_lines(
        &run,
        ["knows x", "chooses the nonce k", "t = [k] = k5 mod 35 = 33", "= k · x3 mod 35 = 24"]
            .map(str::to_string),
    );
    let run = lines(read(&desk, "d.bin").id("run"));
    has_lines(
        &run,
        ["t = [k] = 2k1 · 3k2 mod 23 = 13", "r1 = k1 + 3 · x1 mod 11 = 0"].map(str::to_string),
    );
}

#[test]
fn the_witnesses_of_a_pair_are_hidden_until_two_rounds() {
    let desk = desk("lecture of two hidden witnesses");
    desk.print(
        "dimkhoros make schnorr m=4294967087 q=2147483543 K=11 h=4 x=1234567890 -o large11.bin",
    );
    let hidden = page(&desk, "large11.bin root.bin x=1234567890 k=987654321");
    for secret in ["1234567890", "987654321"] {
        assert!(!before(&hidden, "two-rounds").contains(secret), "{secret} stands there too early");
    }
    let run = lines(markup::read(&hidden).unwrap().id("run-1"));
    has_lines(&run, ["knows x1".to_string()]);
}

#[test]
fn the_page_s_grid_has_the_axes_of_the_command_s() {
    let desk = desk("lecture and grid");
    let cells = lines(read(&desk, "a.bin").id("grid"));
    // A row of the command begins with its challenge, and one of the picture's description is called by it.
    let told = read(&desk, "a.bin").id("grid").named("desc")[0].text();
    let printed = desk.print("dimkhoros grid a.bin");
    assert!(printed.contains("c\\r   0   1   2   3"), "{printed}");
    for challenge in 0..11 {
        let row =
            printed.lines().find(|line| line.starts_with(&format!("{challenge:>3}  "))).unwrap();
        let row: Vec<&str> = row.split_whitespace().skip(1).collect();
        assert!(told.contains(&format!("c {challenge}: {}", row.join(" "))), "{told}: {row:?}");
    }
    assert!(cells.contains(&"response r".to_string()));
}

/// The rows of two lists as the description of their picture tells them.
fn told_rows(page: &Element) -> Vec<[String; 4]> {
    let told = page.id("rounds").named("desc")[0].text();
    let row = |row: &str| {
        let (first, second) = row.split_once("), response ").unwrap();
        let (nonce, honest) = first.strip_prefix("nonce ").unwrap().split_once(" makes ").unwrap();
        let (response, simulated) = second.split_once(" makes ").unwrap();
        [nonce, &format!("{honest})"), simulated, response].map(str::to_string)
    };
    told.trim_end_matches('.').split("; ").map(row).collect()
}

#[test]
fn a_large_sheet_needs_its_witness_and_shows_some_rounds() {
    let desk = desk("lecture of a large sheet");
    let sheet = sheet(1, [4_294_967_087, 2_147_483_543, 65_536], &[4], &[large_statement()]);
    let page = read(&desk, "large.bin x=1234567890 k=987654321 c=40000 c=123");
    let witness = places([1_234_567_890]);
    let round = honest(&sheet, places([987_654_321]), 40_000, witness);
    assert!(lines(page.id("run")).contains(&format!("r = {}", round.response[0])));
    let rows = told_rows(&page);
    assert!(rows.len() > 4 && rows.iter().any(|row| row[1] == printed(&sheet, &round)), "{rows:?}");
    let drawn = lines(page.id("rounds")).join(" ");
    for [nonce, first, second, response] in rows {
        assert!(
            drawn.contains(&nonce) && drawn.contains(&response),
            "{nonce} or {response} is not drawn"
        );
        let [nonce, response] = [nonce, response].map(|value| places([value.parse().unwrap()]));
        let commitment = sheet.simulate(40_000, &response).unwrap();
        assert_eq!(first, printed(&sheet, &honest(&sheet, nonce, 40_000, witness)));
        assert_eq!(second, printed(&sheet, &Round { commitment, challenge: 40_000, response }));
        assert_eq!(first, second);
    }
    let failure = desk.print("dimkhoros lecture large.bin -o page.html --force");
    assert_eq!(
        failure,
        "dimkhoros: x= is missing: a witness of large.bin, which is too large to find one by trying all\n\
         dimkhoros: `dimkhoros lecture --help` says which words it takes\n[2]\n"
    );
}

/// The statement of the large sheet.
fn large_statement() -> u32 {
    let sheet = sheet(1, [4_294_967_087, 2_147_483_543, 65_536], &[4], &[1]);
    Prover::new().commit(&sheet, &places([1_234_567_890])).unwrap().1[0]
}

#[test]
fn a_sheet_without_a_witness_says_so() {
    let desk = desk("lecture without a witness");
    let sheet = sheet(3, [23, 11, 11], &[2, 3], &[13, 13]);
    let page = read(&desk, "none.bin c=3 r=8");
    assert!(page.id("statement").text().contains("there is none: all 11 choices were tried"));
    let commitment = sheet.simulate(3, &places([8])).unwrap();
    let run = lines(page.id("run"));
    assert!(run.contains(&format!("t = {}, c = 3, r = 8", tuple(&commitment, 2))), "{run:?}");
    let rows: Vec<Vec<String>> = page.id("answers").named("tr")[1..]
        .iter()
        .map(|row| {
            row.all()
                .iter()
                .filter(|cell| cell.name.starts_with('t'))
                .map(|cell| cell.text())
                .collect()
        })
        .collect();
    assert_eq!(rows[0], [tuple(&commitment, 2), "3".to_string()]);
    assert!(
        rows.iter().all(|row| row[1].parse::<u32>().is_ok()),
        "a commitment answers several: {rows:?}"
    );
    let marked = page.id("grid").named("rect");
    assert_eq!(marked.iter().filter(|cell| cell.attribute("class") == Some("marked")).count(), 1);
}

/// The round of a holder's choice.
fn or_round(
    pair: &Pair<'_>,
    side: Side,
    choice: [u32; 3],
    challenge: u32,
    witness: u32,
) -> OrRound {
    let [nonce, simulated, response] = choice;
    let commit =
        OrProver::new().commit(pair, side, &places([nonce]), simulated, &places([response]));
    commit.unwrap().0.respond(pair, challenge, &places([witness])).unwrap().1
}

/// A round of the pair as it is printed.
fn or_printed(round: &OrRound) -> String {
    let [t0, t1, r0, r1] = [round.commitment0, round.commitment1, round.response0, round.response1]
        .map(|values| values[0]);
    format!("({t0}, {t1}, {}, {}, {r0}, {r1})", round.challenge, round.challenge0)
}

/// The numbers of a tuple as it is printed.
fn numbers<const COUNT: usize>(tuple: &str) -> [u32; COUNT] {
    let values: Vec<u32> =
        tuple.trim_matches(['(', ')']).split(", ").map(|value| value.parse().unwrap()).collect();
    values.try_into().unwrap()
}

#[test]
fn both_holders_of_a_pair_send_the_same_round() {
    let desk = desk("lecture of a pair");
    let (first, second) = (sheet_a(), sheet_root());
    let pair = Pair::new(&first, &second).unwrap();
    let page = read(&desk, "a.bin root.bin x=7 x1=2 k=5 c=3 c=1 c1=4 r1=8 --show-witness");
    let round = or_round(&pair, Side::First, [5, 4, 8], 3, 7);
    assert!(pair.judge(&round).unwrap().is_accepted());
    let [t0, t1, r0, r1] = [round.commitment0, round.commitment1, round.response0, round.response1]
        .map(|values| values[0]);
    for id in ["run-0", "run-1"] {
        let run = lines(page.id(id));
        for line in [
            format!("t0 = {t0}, t1 = {t1}"),
            "c = 3".to_string(),
            format!("c0 = {}, r0 = {r0}, r1 = {r1}", round.challenge0),
            "both sides: accepted".to_string(),
        ] {
            assert!(run.contains(&line), "{line} is not in {id}: {run:?}");
        }
    }
    assert!(lines(page.id("run-0")).contains(&"chooses k0 = 5, c1 = 4, r1 = 8".to_string()));
    let other = lines(page.id("run-1"));
    let choice = other.iter().find_map(|line| line.strip_prefix("chooses k1 = ")).unwrap();
    let nonce: u32 = choice.split(',').next().unwrap().parse().unwrap();
    assert_eq!(or_round(&pair, Side::Second, [nonce, round.challenge0, r0], 3, 2), round);
    let two = page.id("two-rounds").text();
    assert!(
        two.contains("c0 differs: side 0 gives x0 = 7.")
            && two.contains("c1 differs: side 1 gives x1 = 2.")
    );
}

#[test]
fn both_holders_lists_are_the_same() {
    let desk = desk("lecture of a pair's lists");
    let (first, second) = (sheet_a(), sheet_root());
    let pair = Pair::new(&first, &second).unwrap();
    let page = read(&desk, "a.bin root.bin c=3");
    let rows = rows(&page);
    assert!(rows.len() > 8);
    for [one, made, other, two] in &rows {
        assert_eq!(made, other);
        assert_eq!(*made, or_printed(&or_round(&pair, Side::First, numbers(one), 3, 7)));
        assert_eq!(*other, or_printed(&or_round(&pair, Side::Second, numbers(two), 3, 2)));
    }
    assert!(
        page.id("rounds").text().contains("Each holder makes 2904 rounds"),
        "11 times 11 times 24"
    );
    let all = |side: Side, [own, other]: [&Instance; 2], witness: u32| -> BTreeSet<String> {
        let choices = coordinates(own).into_iter().flat_map(|nonce| {
            let responses = coordinates(other);
            (0..11)
                .flat_map(move |c| responses.clone().into_iter().map(move |r| [nonce[0], c, r[0]]))
        });
        choices.map(|choice| or_printed(&or_round(&pair, side, choice, 3, witness))).collect()
    };
    let holders = [all(Side::First, [&first, &second], 7), all(Side::Second, [&second, &first], 2)];
    assert_eq!(holders[0].len(), 2904);
    assert_eq!(holders[0], holders[1]);
    assert!(rows.iter().all(|row| holders[0].contains(&row[1])));
}

#[test]
fn a_file_s_name_is_escaped() {
    let desk = desk("lecture of a name");
    desk.print("cp a.bin 'a<b>&\"$x$.bin'");
    let page = read(&desk, "'a<b>&\"$x$.bin'");
    assert!(page.named("title")[0].text().starts_with("a<b>&\"$x$.bin: "));
}

/// The stored pages: 01's pages A, D and G, the OR proof of two sheets, and a sheet without a witness.
const STORED: [(&str, &str); 5] = [
    ("page-a.html", "a.bin"),
    ("page-d.html", "d.bin"),
    ("page-g.html", "g.bin"),
    ("or-pair.html", "a.bin root.bin"),
    ("no-witness.html", "none.bin"),
];

#[test]
fn the_stored_pages_are_what_is_made() {
    let folder = Path::new(env!("CARGO_MANIFEST_DIR")).join("tests/pages");
    let desk = desk("lecture stored");
    let bless = env::var_os("BLESS").is_some();
    for (name, words) in STORED {
        let (stored, made) = (folder.join(name), page(&desk, words));
        if bless {
            fs::write(&stored, &made).unwrap();
        }
        let stored = fs::read_to_string(stored).unwrap_or_default();
        assert!(made == stored, "the page of {words} is another; BLESS=1 stores it");
    }
    assert_eq!(fs::read_dir(folder).unwrap().count(), STORED.len(), "a stored page is not made");
}

#[test]
fn eight_rows_and_columns_fit() {
    let desk = desk("lecture of eight rows");
    let entries = ["2,3,4,6,8,9,12,13"; 8].join("/");
    let x = "x=1,2,3,4,5,6,7,8";
    let made = desk.print(&format!("dimkhoros make table={entries} m=23 q=11 {x} -o eight.bin"));
    assert!(made.starts_with("12 = 2^x1 · 3^x2") && made.ends_with("q = 11, K = 11\n"), "{made}");
    let page = read(&desk, &format!("eight.bin {x}"));
    for id in ["statement", "sheet", "run", "extractor", "extractor-columns", "rounds"] {
        assert!(sections(&page).contains(&id.to_string()), "{id}");
    }
    assert_eq!(PLACES, 8);
}
