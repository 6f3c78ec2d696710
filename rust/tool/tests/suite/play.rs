//! The pages of `lecture --play` in a browser: a script plays each game by clicks and keys, and every number that it sees is held
//! against the library's.

use crate::browser::{MEASURE, browser, dumped, sheets_and_sections, told_by};
use crate::desk::Desk;
use dimkhoros::{
    Instance, OrRound, OrVerdict, PLACES, Pair, Places, Prover, ROOT, Round, Side, Team,
};
use std::fs;

/// The script that plays.
const PLAYS: &str = include_str!("play.js");

/// What the script saw at one look: values by their names, in their order on the slide.
struct Look {
    name: String,
    values: Vec<(String, String)>,
}

impl Look {
    /// A line of the script's log.
    fn read(line: &str) -> Look {
        let mut parts = line.split(';');
        let name = parts.next().unwrap().to_string();
        let pair = |part: &str| {
            let (name, value) = part.split_once('=').unwrap_or((part, ""));
            (name.to_string(), value.to_string())
        };
        Look { name, values: parts.map(pair).collect() }
    }

    /// All values of a name.
    fn all(&self, name: &str) -> Vec<&str> {
        let named = self.values.iter().filter(|(other, _)| other == name);
        named.map(|(_, value)| value.as_str()).collect()
    }

    /// The first value of a name.
    fn text(&self, name: &str) -> &str {
        self.all(name)
            .first()
            .unwrap_or_else(|| panic!("{}: no {name}: {:?}", self.name, self.values))
    }

    /// The first value of a name as a number, with a minus sign if it is negative.
    fn number(&self, name: &str) -> i64 {
        self.text(name).replace('−', "-").parse().unwrap()
    }

    /// The first value of a name as a tuple.
    fn places(&self, name: &str) -> Places {
        places_of(self.text(name))
    }

    /// The first value of a name as a challenge.
    fn challenge(&self, name: &str) -> u32 {
        self.text(name).parse().unwrap()
    }

    /// The round that is called by these letters.
    fn round(&self, [t, c, r]: [&str; 3]) -> Round {
        Round { commitment: self.places(t), challenge: self.challenge(c), response: self.places(r) }
    }
}

/// The numbers of a tuple as it is printed.
fn places_of(tuple: &str) -> Places {
    let mut places = [0; PLACES];
    let numbers = tuple.trim_matches(['(', ')']).split(", ");
    for (place, number) in places.iter_mut().zip(numbers) {
        *place = number.parse().unwrap_or_else(|_| panic!("{tuple} is no tuple"));
    }
    places
}

/// What the script sees on the page of these words, and what the browser says on standard error.
fn played(browser: &str, desk: &Desk, words: &str) -> Vec<Look> {
    let printed = desk.print(&format!("dimkhoros lecture {words} --play -o page.html --force"));
    assert!(printed.starts_with("page.html has ") && !printed.contains("does not"), "{printed}");
    let page = fs::read_to_string(desk.folder.join("page.html")).unwrap();
    let script = format!("<script>\n{PLAYS}</script></body>");
    fs::write(desk.folder.join("played.html"), page.replace("</body>", &script)).unwrap();
    let [dom, told] = dumped(browser, desk, "played.html").expect(words);
    assert!(!told.contains("CONSOLE"), "{words}: {told}");
    let log = dom.split_once("<pre id=\"log\">").expect("the script came to its end").1;
    let log = log.split_once("</pre>").unwrap().0;
    log.lines().map(Look::read).collect()
}

/// The looks of a name.
fn named<'a>(looks: &'a [Look], name: &str) -> Vec<&'a Look> {
    let named: Vec<&Look> = looks.iter().filter(|look| look.name == name).collect();
    assert!(!named.is_empty(), "the script did not see {name}");
    named
}

/// The product modulo a number.
fn product(one: u32, other: u32, modulus: u32) -> u32 {
    (u64::from(one) * u64::from(other) % u64::from(modulus)) as u32
}

/// Both sides of the rows of a round: the library's image, and the right side computed here.
fn sides(sheet: &Instance, round: &Round) -> [Vec<String>; 2] {
    let (header, statement) = (sheet.values().header, sheet.values().statement);
    let image = Prover::new().commit(sheet, &round.response).unwrap().1;
    let right = |row: usize| {
        let powers = (0..round.challenge).map(|_| statement[row]);
        powers.fold(round.commitment[row], |all, z| product(all, z, header.modulus))
    };
    let rows = 0..header.rows as usize;
    [
        rows.clone().map(|row| image[row].to_string()).collect(),
        rows.map(|row| right(row).to_string()).collect(),
    ]
}

/// A check on a slide is the library's: its sides from a place on, and the verdict of that place.
fn check_shown(look: &Look, sheet: &Instance, round: &Round, place: usize) -> bool {
    let rows = sheet.values().header.rows as usize;
    let [left, right] = sides(sheet, round);
    let shown = |name: &str| look.all(name)[place * rows..(place + 1) * rows].to_vec();
    assert_eq!(shown("left"), left, "{round:?}");
    assert_eq!(shown("right"), right, "{round:?}");
    let accepted = sheet.judge(round).unwrap().is_accepted();
    let words = if accepted { "✓ accepted" } else { "✗ rejected" };
    assert_eq!(look.all("verdict")[place], words, "{round:?}");
    accepted
}

/// The games in which the class is Vic.
fn check_vic(looks: &[Look], sheet: &Instance, witness: bool) {
    let games = named(looks, "vic");
    let told = named(looks, "vic-told");
    let kinds =
        if witness { vec!["honest", "hope", "simulator"] } else { vec!["hope", "simulator"] };
    let mut score = [0, 0];
    for (game, told) in games.iter().zip(&told) {
        let round = game.round(["t", "c", "r"]);
        let accepted = check_shown(game, sheet, &round, 0);
        let kind = told.text("kind");
        let kind = match kind {
            _ if kind.starts_with("an honest") => "honest",
            _ if kind.starts_with("the simulator") => "simulator",
            _ => "hope",
        };
        match kind {
            "hope" => {
                assert_eq!(accepted, told.challenge("hope") == round.challenge, "{round:?}");
                let hoped = Round { challenge: told.challenge("hope"), ..round };
                assert!(sheet.judge(&hoped).unwrap().is_accepted());
            }
            _ => assert!(accepted, "{kind}: {round:?}"),
        }
        score[1] += 1;
        score[0] += usize::from(kinds[told.number("guess") as usize] == kind);
        let shown: [usize; 2] =
            ["right", "all"].map(|name| told.all(name).last().unwrap().parse().unwrap());
        assert_eq!(shown, score);
    }
    check_rate(looks, sheet);
}

/// The numbers of the games of a Peggy without a witness, one by one and a hundred at once.
fn check_rate(looks: &[Look], sheet: &Instance) {
    let told = named(looks, "vic-told");
    let hopes: Vec<&&Look> = told.iter().filter(|told| !told.all("hope").is_empty()).collect();
    let [through, all] = ["through", "cheats"].map(|name| told.last().unwrap().number(name));
    let accepted = hopes.iter().filter(|told| told.text("verdict") == "✓ accepted").count();
    assert_eq!([through, all], [accepted as i64, hopes.len() as i64]);
    let many = named(looks, "vic-many")[0];
    assert_eq!(many.number("cheats"), all + 100);
    assert!((through..=through + 100).contains(&many.number("through")));
    assert_eq!(many.challenge("K"), sheet.values().header.challenges);
}

/// The numbers of the command `game`'s table in the form of 02's lines, or `none`.
fn answers(table: &str) -> String {
    let numbers = |line: &str| {
        let parts = line.split(|sign: char| !sign.is_ascii_digit());
        parts.filter(|part| !part.is_empty()).collect::<Vec<_>>().join(" ")
    };
    if table == "none" {
        return table.to_string();
    }
    table.lines().skip(1).map(numbers).collect::<Vec<_>>().join("\n")
}

/// The games in which the class is Peggy. The lines are those of the command `game`.
fn check_peggy(looks: &[Look], desk: &Desk, sheet: &Instance, name: &str) {
    for game in named(looks, "peggy") {
        let (t, c) = (game.places("t"), game.challenge("c"));
        let rows = sheet.values().header.rows as usize;
        let values: Vec<String> = t[..rows].iter().map(u32::to_string).collect();
        let printed = desk.print(&format!("dimkhoros game {name} t={}", values.join(",")));
        let (table, said) = printed.split_once("\n\n").unwrap();
        let lines = answers(table);
        assert_eq!(game.text("lines").replace('/', "\n"), lines, "{printed}");
        let found = if lines == "none" { 0 } else { lines.lines().count() };
        assert_eq!(game.number("answers") as usize, found, "{said}");
        let smallest = lines.lines().find_map(|line| line.strip_prefix(&format!("{c} ")));
        let numbers = |text: &str| {
            text.split([' ', ','])
                .filter(|part| !part.is_empty())
                .map(str::to_string)
                .collect::<Vec<_>>()
        };
        let shown = game.all("smallest");
        let shown = shown.first().map(|text| numbers(text.trim_matches(['(', ')'])));
        assert_eq!(shown, smallest.map(numbers), "{printed}");
        if game.all("r").is_empty() {
            continue;
        }
        let round = Round { commitment: t, challenge: c, response: game.places("r") };
        let [left, right] = sides(sheet, &round);
        assert_eq!(game.text("left"), left.join(", "));
        assert!(smallest.is_none() || game.text("right") == right.join(", "));
        let accepted = sheet.judge(&round).unwrap().is_accepted();
        assert_eq!(game.text("verdict"), if accepted { "✓ accepted" } else { "✗ rejected" });
        assert!(accepted || game.all("box").is_empty(), "the box answers every challenge");
    }
}

/// The extractor's steps on two rounds end in the library's witness.
fn check_steps(look: &Look, sheet: &Instance, rounds: [Round; 2]) {
    let header = sheet.values().header;
    assert_eq!(look.places("x"), sheet.extract(&rounds[0], &rounds[1]).unwrap(), "{rounds:?}");
    let [difference, a, b] = ["difference", "a", "b"].map(|name| look.number(name));
    let [first, second] = rounds.map(|round| i64::from(round.challenge));
    assert_eq!(difference, first - second);
    assert_eq!(i64::from(header.order) * a + difference * b, 1);
    assert_eq!(places_of(look.all("t").last().unwrap()), rounds[0].commitment);
    assert_eq!(look.places("z"), sheet.values().statement);
}

/// The responses of a sheet, rising.
fn responses(sheet: &Instance) -> Vec<Places> {
    let header = sheet.values().header;
    let each = if header.kind == ROOT { header.modulus } else { header.order };
    let count = u64::from(each).pow(header.columns) as u32;
    let choice = |number: u32| {
        let mut places = [0; PLACES];
        let mut rest = number;
        for place in places[..header.columns as usize].iter_mut().rev() {
            *place = rest % each;
            rest /= each;
        }
        places
    };
    let is_one = |places: &Places| Prover::new().commit(sheet, places).is_ok();
    (0..count).map(choice).filter(is_one).collect()
}

/// The extractor on every two cells, and on a rewound Peggy.
fn check_extractor(looks: &[Look], sheet: &Instance) {
    let all = responses(sheet);
    for look in named(looks, "extractor") {
        let cells: Vec<usize> = look.text("cells").split('-').map(|n| n.parse().unwrap()).collect();
        let round = |c: usize, r: usize| Round {
            commitment: places_of(look.all("t").last().unwrap()),
            challenge: c as u32,
            response: all[r],
        };
        check_steps(look, sheet, [round(cells[0], cells[1]), round(cells[2], cells[3])]);
    }
    for look in named(looks, "rewind") {
        check_steps(look, sheet, [look.round(["t", "c", "r"]), look.round(["t", "d", "s"])]);
    }
}

/// The simulator's rounds, and both lists when they are full.
fn check_simulator(looks: &[Look], sheet: &Instance, witness: bool) {
    for look in named(looks, "simulator") {
        let made = ["t", "r"].map(|name| look.all(name));
        if made[0].is_empty() {
            continue;
        }
        let (challenge, response) = (look.challenge("slider"), look.places("r"));
        assert_eq!(look.places("t"), sheet.simulate(challenge, &response).unwrap());
    }
    let rows = |values: &Places, count: u32| match count {
        1 => values[0].to_string(),
        _ => format!(
            "({})",
            values[..count as usize].iter().map(u32::to_string).collect::<Vec<_>>().join(", ")
        ),
    };
    let lists = named(looks, "list");
    assert_eq!(lists.len(), if witness { 4 } else { 2 });
    for list in lists {
        let (challenge, header) = (list.challenge("slider"), sheet.values().header);
        let round = |response: &Places| {
            let t = sheet.simulate(challenge, response).unwrap();
            format!("({}, {challenge}, {})", rows(&t, header.rows), rows(response, header.columns))
        };
        assert_eq!(list.all("round"), responses(sheet).iter().map(round).collect::<Vec<_>>());
    }
}

/// The games of a team of two.
fn check_team(looks: &[Look], sheet: &Instance) {
    let sent = named(looks, "team-sent");
    let given = named(looks, "team");
    let told = named(looks, "team-told");
    for ((sent, given), told) in sent.iter().zip(given).zip(told) {
        let images = [sent.places("z1"), sent.places("z2")];
        let team = Team::new(sheet, &images).unwrap();
        let challenge = given.challenge("c");
        let part = |t: &str, r: &str| Round {
            commitment: sent.places(t),
            challenge,
            response: given.places(r),
        };
        let (parts, whole) = ([part("t1", "r1"), part("t2", "r2")], part("t", "r"));
        let joined = team.join_commitments(&parts.map(|round| round.commitment)).unwrap();
        assert_eq!(whole.commitment, joined);
        assert_eq!(
            whole.response,
            team.join_responses(&parts.map(|round| round.response)).unwrap()
        );
        let accepted = check_shown(told, sheet, &whole, 0);
        let each = [0, 1].map(|player| {
            let own = sheet.with_statement(&images[player]).unwrap();
            check_shown(told, &own, &parts[player], player + 1)
        });
        assert_eq!(accepted, each == [true, true]);
        let cheat =
            ["nobody", "player 1", "player 2"].iter().position(|name| told.text("cheat") == *name);
        let cheat = cheat.unwrap();
        assert!(each.iter().enumerate().all(|(player, accepted)| *accepted || cheat == player + 1));
        // In a root sheet an image can have a small order, with which other challenges get through too.
        let own = cheat > 0 && told.challenge("prepared") == challenge;
        let exact = cheat > 0 && sheet.values().header.kind != ROOT;
        assert!(!own || each[cheat - 1], "the prepared challenge is answered");
        assert!(!exact || each[cheat - 1] == own, "another challenge is answered");
    }
}

/// The words of each sheet of a desk, whether it has a witness, and its file.
const SHEETS: [(&str, bool, &str); 5] = [
    ("dimkhoros make schnorr m=23 q=11 h=2 x=7 -o sheet.bin", true, "page A"),
    ("dimkhoros make okamoto m=23 q=11 h=2,3 z=18 -o sheet.bin", true, "page D"),
    ("dimkhoros make root m=35 e=5 z=32 -o sheet.bin", true, "page G"),
    ("dimkhoros make equality m=23 q=11 h=2,3 z=13,13 -o sheet.bin", false, "no witness"),
    ("dimkhoros make schnorr m=49117 q=4093 K=64 h=4096 x=1234 -o sheet.bin", true, "the largest"),
];

/// All games of a sheet are played, and the witness is hidden until the extractor.
fn check_sheet(place: usize) {
    let (make, witness, name) = SHEETS[place];
    let Some(browser) = browser(&format!("the games of {name}")) else { return };
    let desk = Desk::new(&format!("play {name}"));
    desk.print(make);
    let looks = played(browser, &desk, "sheet.bin");
    let sheet = Instance::load(&fs::read(desk.folder.join("sheet.bin")).unwrap()).unwrap();
    check_vic(&looks, &sheet, witness);
    check_peggy(&looks, &desk, &sheet, "sheet.bin");
    check_simulator(&looks, &sheet, witness);
    for look in ["start", "before"] {
        assert_eq!(named(&looks, look)[0].text("x"), "", "x is shown before the extractor");
    }
    let hidden = |look: &str| named(&looks, look)[0].text("hidden").to_string();
    if witness {
        check_team(&looks, &sheet);
        check_extractor(&looks, &sheet);
        assert!(hidden("before").starts_with("extractor"), "{}", hidden("before"));
        assert!(!named(&looks, "after")[0].text("x").is_empty());
    }
    assert_eq!(hidden("after"), "");
    assert_eq!(named(&looks, "wide")[0].values[0].0, "", "a slide is too wide");
}

/// A script that plays with keys alone, as a clicker sends them, and writes where the focus is after each.
const KEYS: &str = "<script>
  const log = [];
  const key = (name) => {
    const at = document.activeElement || document.body;
    const event = new KeyboardEvent('keydown', { key: name, bubbles: true, cancelable: true });
    at.dispatchEvent(event);
    // What the browser does with the space bar on a button.
    if (name === ' ' && !event.defaultPrevented && at.localName === 'button') at.click();
    return (document.activeElement || {}).id || document.activeElement.localName;
  };
  const walk = (name, steps) => Array.from({ length: steps }, () => key(name)).join(' ');
  log.push(walk('PageDown', 3), walk('ArrowRight', 1), walk('ArrowDown', 1), walk('PageUp', 2), walk('ArrowLeft', 1), walk('ArrowUp', 1));
  walk('PageDown', 1);
  document.activeElement.blur();
  window.scrollTo(0, document.getElementById('play-vic').offsetTop);
  key('3');
  const values = (name) => [...document.querySelectorAll('#play-vic [data-value=' + name + ']')].map((seen) => seen.textContent);
  log.push('digit ' + values('c'));
  key(' ');
  log.push('space ' + values('verdict').length);
  const reached = [...document.querySelectorAll('.play button, .play select, .play input, .play pre')];
  log.push('reached ' + reached.every((element) => element.tabIndex === 0) + ' ' + (reached.length > 100));
  const named = reached.every((element) => element.textContent.trim() || element.getAttribute('aria-label') || element.labels?.length);
  log.push('named ' + Boolean(named));
  const first = document.querySelector('#play-peggy button');
  first.focus({ focusVisible: true });
  log.push('outline ' + getComputedStyle(first).outlineStyle);
  document.title = log.join('; ');
</script></body>";

#[test]
fn a_clicker_and_a_keyboard_suffice() {
    let Some(browser) = browser("the keys of a page that plays") else { return };
    let desk = Desk::new("play keys");
    desk.print(SHEETS[0].0);
    desk.print("dimkhoros lecture sheet.bin --play -o page.html");
    assert_eq!(
        told_by(browser, &desk, "page.html", KEYS),
        "run play-vic play-peggy; play-extractor; play-rewind; play-extractor play-peggy; play-vic; run; digit 3; space 1; \
         reached true true; named true; outline solid"
    );
}

/// A script that plays a page so that its slides are full, at the size that they have on a slide.
const FULL: &str = "<script>
  const press = (selector, place = 0) => document.querySelectorAll(selector)[place].click();
  press('#play-vic [data-choice]'); press('#play-vic button.main'); press('#play-vic [data-guess]');
  press('#play-peggy .choice button', 1); press('#play-peggy [data-choice]'); press('#play-peggy button.main');
  press('#play-extractor [data-cell]');
  const t = document.querySelector('[data-mark]').dataset.t;
  const cells = [...document.querySelectorAll('#play-extractor .cell')].filter((cell) => cell.dataset.t === t);
  cells.find((cell) => !cell.dataset.cell.startsWith('0-')).click();
  press('#play-rewind [data-choice]'); press('#play-rewind button.main'); press('#play-rewind [data-choice]', 1);
  press('#play-simulator button.main');
  press('#play-team [data-choice]'); press('#play-team [data-guess]');
</script>";

#[test]
fn the_slides_of_a_game_fit() {
    let Some(browser) = browser("that slides of games fit") else { return };
    for (place, (make, _, name)) in SHEETS[..3].iter().enumerate() {
        let desk = Desk::new(&format!("play fits {place}"));
        desk.print(make);
        desk.print("dimkhoros lecture sheet.bin --play -o page.html");
        assert_eq!(
            told_by(browser, &desk, "page.html", &format!("{FULL}{MEASURE}")),
            "wrong: ",
            "{name}"
        );
    }
}

/// A page that shows another one on a telephone, and says how wide it is there.
const TELEPHONE: &str = "<!DOCTYPE html><html><title>wrong</title><body>
<iframe width=\"390\" height=\"844\" srcdoc=\"PAGE\"></iframe><script>
  const frame = document.querySelector('iframe');
  const measure = () => {
    const inner = frame.contentDocument;
    const size = (text) => parseFloat(frame.contentWindow.getComputedStyle(text).fontSize);
    const small = [...inner.querySelectorAll('.play p, .play button')].filter((text) => size(text) < 15).length;
    const slides = inner.querySelectorAll('.play').length;
    document.title = 'wide ' + inner.documentElement.scrollWidth + ' small ' + small + ' slides ' + slides;
  };
  if (frame.contentDocument && frame.contentDocument.readyState === 'complete') measure();
  frame.addEventListener('load', measure);
</script></body></html>";

#[test]
fn a_game_fits_on_a_telephone() {
    let Some(browser) = browser("that games fit on a telephone") else { return };
    let desk = Desk::new("play on a telephone");
    desk.print(SHEETS[0].0);
    desk.print("dimkhoros lecture sheet.bin --play -o page.html");
    let page = fs::read_to_string(desk.folder.join("page.html")).unwrap();
    let inner = page.replace('&', "&amp;").replace('"', "&quot;");
    fs::write(desk.folder.join("telephone.html"), TELEPHONE.replace("PAGE", &inner)).unwrap();
    let [dom, _] = dumped(browser, &desk, "telephone.html").unwrap();
    assert!(dom.contains("<title>wide 390 small 0 slides 6</title>"), "{}", &dom[..200]);
}

#[test]
fn on_paper_a_page_has_its_sections_without_the_games() {
    let Some(browser) = browser("how a page that plays is printed") else { return };
    let desk = Desk::new("play on paper");
    desk.print(SHEETS[0].0);
    desk.print("dimkhoros lecture sheet.bin --play -o page.html");
    let [sheets, sections] = sheets_and_sections(browser, &desk, "page.html");
    assert_eq!([sheets, sections], [5, 5]);
}

#[test]
fn without_its_script_a_page_is_the_page_without_play() {
    let desk = Desk::new("play without a script");
    desk.print(SHEETS[0].0);
    desk.print("dimkhoros lecture sheet.bin --play -o play.html");
    desk.print("dimkhoros lecture sheet.bin -o page.html");
    let [play, page] =
        ["play.html", "page.html"].map(|name| fs::read_to_string(desk.folder.join(name)).unwrap());
    let (before, rest) = play.split_once("</main>\n").unwrap();
    let (added, after) = rest.split_once("</body>").unwrap();
    assert_eq!(format!("{before}</main>\n</body>{after}"), page);
    assert!(added.starts_with("<style>\n.play {") && added.ends_with("</script>\n"));
    // A page is one file that reaches for nothing else, and its script takes no text as markup or as program.
    for word in [
        "http",
        "src=",
        "href",
        "url(",
        "@import",
        "import(",
        "fetch",
        "innerHTML",
        "eval",
        "XMLHttp",
    ] {
        assert!(!added.contains(word), "{word}");
    }
}

#[test]
fn a_sheet_that_is_too_large_says_why_it_does_not_play() {
    let desk = Desk::new("play too large");
    for (make, why) in [
        (
            "schnorr m=49117 q=4093 h=4096 x=1",
            "4093 challenges by 4093 responses are more than 262144 cells",
        ),
        (
            "schnorr m=8147 q=4073 K=65 h=3 x=1",
            "65 challenges by 4073 responses are more than 262144 cells",
        ),
        ("okamoto m=23 q=11 K=11 h=2,2 x=1,2", ""),
        ("okamoto m=367 q=61 K=61 h=64,362 x=1,2", "the sheet has 61 witnesses and 415"),
        ("root m=4099 e=5 x=2", "m = 4099 is above 4096"),
        ("root m=35 e=5 x=2,3", "a root sheet plays with one row, and this one has 2"),
        ("okamoto m=8147 q=4073 K=2 h=3,4 x=1,2", "q^n = 4073^2 is above 4096"),
    ] {
        let made = desk.print(&format!("dimkhoros make {make} -o sheet.bin --force"));
        assert!(!made.contains("dimkhoros"), "{made}");
        let x = make.split(' ').next_back().unwrap();
        let printed =
            desk.print(&format!("dimkhoros lecture sheet.bin {x} --play -o page.html --force"));
        let page = fs::read_to_string(desk.folder.join("page.html")).unwrap();
        let printed = printed.replace("\n    ", " ");
        assert_eq!(printed.contains("does not play: "), !why.is_empty(), "{make}: {printed}");
        assert!(printed.contains(why), "{make}: {printed}");
        assert_eq!(page.contains("<script"), why.is_empty(), "{make}");
        assert!(why.is_empty() || page.contains("This page does not play: "), "{make}");
    }
}

/// A script that takes the time of clicks on the largest page, in milliseconds.
const CLICKS: &str = "<script>
  const time = (act) => { const start = performance.now(); act(); document.body.offsetHeight; return performance.now() - start; };
  const press = (selector) => document.querySelector(selector).click();
  const list = (id, place) => { const list = document.querySelector(id + ' select'); list.value = place; list.nextElementSibling.click(); };
  const times = [
    time(() => press('#play-vic [data-choice]')), time(() => press('#play-vic button.main')), time(() => press('#play-vic [data-guess]')),
    time(() => press('#play-peggy button.main')), time(() => list('#play-peggy', '17')), time(() => press('#play-peggy button.main')),
    time(() => press('#play-peggy button.main')), time(() => list('#play-extractor', '99')),
    time(() => press('#play-extractor [data-cell]')),
    time(() => list('#play-simulator', '77')), time(() => press('#play-simulator button.main')),
  ];
  document.title = 'slowest ' + Math.ceil(Math.max(...times)) + ' opened ' + Math.ceil(performance.now()) + ' all ' + times.map(Math.ceil);
</script></body>";

#[test]
fn the_largest_page_answers_a_click_at_once() {
    let Some(browser) = browser("how fast the largest page answers") else { return };
    let desk = Desk::new("play speed");
    desk.print(SHEETS[4].0);
    desk.print("dimkhoros lecture sheet.bin --play -o page.html");
    let told = told_by(browser, &desk, "page.html", CLICKS);
    let slowest: u32 = told.split(' ').nth(1).unwrap().parse().unwrap();
    // A second on a busy machine: what a class does not wait for.
    assert!(slowest < 1000, "{told}");
    println!("{told}");
}

#[test]
fn page_a_is_played() {
    check_sheet(0);
}

#[test]
fn page_d_is_played() {
    check_sheet(1);
}

#[test]
fn page_g_is_played() {
    check_sheet(2);
}

#[test]
fn a_sheet_without_a_witness_is_played() {
    check_sheet(3);
}

#[test]
fn the_largest_sheet_is_played() {
    check_sheet(4);
}

/// The round of a pair on a slide, whose letters have this sign behind them.
fn or_round(look: &Look, sign: &str) -> OrRound {
    let letter = |letter: &str| format!("{letter}{sign}");
    OrRound {
        commitment0: look.places("t0"),
        commitment1: look.places("t1"),
        challenge: look.challenge(&letter("c")),
        challenge0: look.challenge(&letter("c0")),
        response0: look.places(&letter("r0")),
        response1: look.places(&letter("r1")),
    }
}

#[test]
fn a_pair_is_played() {
    let Some(browser) = browser("the games of a pair") else { return };
    let desk = Desk::new("play a pair");
    desk.print("dimkhoros make schnorr m=23 q=11 h=2 x=7 -o a.bin");
    desk.print("dimkhoros make root m=35 e=11 K=11 z=18 -o root.bin");
    let looks = played(browser, &desk, "a.bin root.bin");
    let sheets = ["a.bin", "root.bin"]
        .map(|name| Instance::load(&fs::read(desk.folder.join(name)).unwrap()).unwrap());
    let pair = Pair::new(&sheets[0], &sheets[1]).unwrap();
    for look in named(&looks, "or") {
        let round = or_round(look, "");
        assert_eq!(pair.judge(&round).unwrap(), OrVerdict::Accepted);
        let own = (round.challenge + 11 - round.challenge0) % 11;
        assert_eq!(look.challenge("c1"), own);
        let parts = [
            (round.commitment0, round.challenge0, round.response0),
            (round.commitment1, own, round.response1),
        ];
        for (place, (commitment, challenge, response)) in parts.into_iter().enumerate() {
            check_shown(look, &sheets[place], &Round { commitment, challenge, response }, place);
        }
    }
    for look in named(&looks, "or-rewound") {
        let found = pair.extract(&or_round(look, ""), &or_round(look, "′")).unwrap();
        let side = if look.number("side") == 0 { Side::First } else { Side::Second };
        assert_eq!((found.side, found.values), (side, look.places("x")));
    }
    assert_eq!(named(&looks, "start")[0].text("x"), "");
    assert!(named(&looks, "start")[0].text("hidden").starts_with("two-rounds,extractor-0"));
    assert_eq!(named(&looks, "after")[0].text("hidden"), "");
}
