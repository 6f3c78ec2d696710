//! The pages of the command `lecture` in a browser, where one is installed: they fit on slides and on paper, nothing overlaps,
//! and nothing is said on the console.

use crate::desk::Desk;
use std::env;
use std::fs::{self, File};
use std::io::{self, Write};
use std::process::Command;
use std::thread;
use std::time::{Duration, Instant};

/// The programs that are looked for.
const BROWSERS: [&str; 3] = ["chromium", "chromium-browser", "google-chrome"];

/// The longest time that a browser may take for a page.
const LONGEST: Duration = Duration::from_secs(120);

/// How often a browser is started on a page before it counts as one that cannot open it: on a busy machine one may end early.
const TRIES: usize = 3;

/// The browser that is on PATH and opens a page. Where there is none a line on standard error names what is not tried.
pub fn browser(what: &str) -> Option<&'static str> {
    let folders: Vec<_> = env::split_paths(&env::var_os("PATH").unwrap_or_default()).collect();
    let is_there = |name: &&str| folders.iter().any(|folder| folder.join(name).is_file());
    let found = BROWSERS.into_iter().find(is_there);
    let why = match found {
        None => format!("no browser is installed ({})", BROWSERS.join(", ")),
        Some(name) if !opens(name, what) => format!("{name} opens no page here"),
        Some(name) => return Some(name),
    };
    // The harness keeps back what a macro prints.
    io::stderr().write_all(format!("{why}: not tried: {what}\n").as_bytes()).unwrap();
    None
}

/// Whether a browser opens a page of one word.
fn opens(browser: &str, what: &str) -> bool {
    let desk = Desk::new(&format!("browser opens {what}"));
    fs::write(desk.folder.join("page.html"), "<!DOCTYPE html><title>opened</title>").unwrap();
    dumped(browser, &desk, "page.html").is_some_and(|[dom, _]| dom.contains("opened"))
}

/// The page as the browser has it once it is open, and what it says on standard error.
pub fn dumped(browser: &str, desk: &Desk, page: &str) -> Option<[String; 2]> {
    let tried = (0..TRIES).map(|_| open(browser, desk, page, &["--dump-dom"]));
    tried.into_iter().find(|[dom, _]| dom.contains("</html>"))
}

/// The bytes of the page as the browser prints it.
fn on_paper(browser: &str, desk: &Desk, page: &str) -> Option<Vec<u8>> {
    let paper = desk.folder.join("page.pdf");
    let tried = (0..TRIES).map(|_| {
        open(browser, desk, page, &["--print-to-pdf=page.pdf", "--no-pdf-header-footer"]);
        fs::read(&paper)
    });
    let printed = tried.into_iter().find_map(Result::ok);
    let _ = fs::remove_file(&paper);
    printed
}

/// What the browser prints, on standard output and on standard error, when it opens a page of the desk.
fn open(browser: &str, desk: &Desk, page: &str, words: &[&str]) -> [String; 2] {
    let printed = ["printed", "told"].map(|name| desk.folder.join(name));
    let [output, error] = printed.each_ref().map(|path| File::create(path).unwrap());
    let path = desk.folder.join(page).display().to_string().replace(' ', "%20");
    let mut running = Command::new(browser)
        .args(["--headless", "--no-sandbox", "--disable-gpu", "--hide-scrollbars"])
        .args(["--enable-logging=stderr", "--window-size=1280,720"])
        .arg(format!("--user-data-dir={}", desk.folder.join("profile").display()))
        .args(words)
        .arg(format!("file://{path}"))
        .current_dir(&desk.folder)
        .stdout(output)
        .stderr(error)
        .spawn()
        .unwrap();
    let start = Instant::now();
    while running.try_wait().unwrap().is_none() {
        if start.elapsed() > LONGEST {
            running.kill().unwrap();
        }
        thread::sleep(Duration::from_millis(20));
    }
    printed.map(|path| String::from_utf8_lossy(&fs::read(path).unwrap()).into_owned())
}

/// The sheets and the words of the pages that are looked at.
const PAGES: [(&str, &str); 4] = [
    ("dimkhoros make schnorr m=23 q=11 h=2 x=7 -o a.bin", "a.bin"),
    ("dimkhoros make okamoto m=23 q=11 h=2,3 z=18 -o d.bin", "d.bin"),
    ("dimkhoros make root m=35 e=5 z=32 -o g.bin", "g.bin"),
    ("dimkhoros make root m=35 e=11 K=11 z=18 -o root.bin", "a.bin root.bin"),
];

/// A folder with a page for each of these, page-0.html and so on.
fn desk(name: &str) -> Desk {
    let desk = Desk::new(name);
    for (place, (sheet, words)) in PAGES.iter().enumerate() {
        let printed =
            desk.print(&format!("{sheet} && dimkhoros lecture {words} -o page-{place}.html"));
        assert!(printed.contains(&format!("page-{place}.html has ")), "{printed}");
    }
    desk
}

/// A script that measures a page at the size that it has on a slide of 1280 by 720, and puts what it finds wrong into the page's
/// title. The window may be lower than it was asked for. The pages themselves have no script.
pub const MEASURE: &str = "<style>html { font-size: 20px !important; }</style><script>
  const wrong = [];
  for (const section of document.querySelectorAll('section')) {
    const outer = section.getBoundingClientRect();
    if (outer.height > 721) wrong.push(section.id + ' is ' + outer.height + ' tall');
    if (section.scrollWidth > section.clientWidth) wrong.push(section.id + ' is too wide');
    const texts = [...section.querySelectorAll('svg text')].map(text => [text.textContent, text.getBoundingClientRect()]);
    texts.forEach(([words, one], place) => {
      if (one.left < 0 || one.right > 1280) wrong.push(words + ' is cut');
      for (const [others, other] of texts.slice(place + 1)) {
        const across = Math.min(one.right, other.right) - Math.max(one.left, other.left);
        const down = Math.min(one.bottom, other.bottom) - Math.max(one.top, other.top);
        if (across > 1 && down > 8) wrong.push(words + ' overlaps ' + others);
      }
    });
    for (const text of section.querySelectorAll('p, td, th, caption, text, h1, h2, li')) {
      if (parseFloat(getComputedStyle(text).fontSize) < 18) wrong.push(text.textContent + ' is small');
    }
  }
  document.title = 'wrong: ' + wrong.join('; ');
</script></body>";

#[test]
fn every_section_fits_on_a_slide_and_nothing_overlaps() {
    let Some(browser) = browser("that pages fit on slides") else { return };
    let desk = desk("browser slides");
    for (place, (_, words)) in PAGES.iter().enumerate() {
        let told = told_by(browser, &desk, &format!("page-{place}.html"), MEASURE);
        assert_eq!(told, "wrong: ", "{words}");
    }
}

/// A script that puts into the page's title the captions whose last line has a few letters only.
const CAPTIONS: &str = "<style>html { font-size: 20px !important; }</style><script>
  const wrong = [];
  for (const caption of document.querySelectorAll('caption')) {
    const range = document.createRange();
    range.selectNodeContents(caption);
    const lines = new Map();
    for (const box of range.getClientRects()) {
      const line = Math.round(box.bottom / 12);
      lines.set(line, (lines.get(line) || 0) + box.width);
    }
    const widths = [...lines.values()];
    if (Math.min(...widths) < 60) wrong.push(caption.textContent + ' has lines of ' + widths);
  }
  document.title = 'wrong: ' + wrong.join('; ');
</script></body>";

/// What a script that is put at the end of a page writes into its title.
pub fn told_by(browser: &str, desk: &Desk, page: &str, script: &str) -> String {
    let page = fs::read_to_string(desk.folder.join(page)).unwrap();
    fs::write(desk.folder.join("measured.html"), page.replace("</body>", script)).unwrap();
    let [dom, _] = dumped(browser, desk, "measured.html").expect("the page is opened");
    let title = dom.split_once("<title>").and_then(|(_, rest)| rest.split_once("</title>"));
    title.unwrap().0.to_string()
}

#[test]
fn no_caption_breaks_before_its_last_letter() {
    let Some(browser) = browser("that captions are not broken") else { return };
    let desk = desk("browser captions");
    desk.print("dimkhoros lecture d.bin x=1,2 k=0,0 c=1 -o page-d.html");
    for page in ["page-0.html", "page-1.html", "page-2.html", "page-3.html", "page-d.html"] {
        assert_eq!(told_by(browser, &desk, page, CAPTIONS), "wrong: ", "{page}");
    }
}

#[test]
fn the_browser_says_nothing_on_the_console() {
    let Some(browser) = browser("that pages make no errors") else { return };
    let desk = desk("browser console");
    for (place, (_, words)) in PAGES.iter().enumerate() {
        let page = format!("page-{place}.html");
        let [dom, told] = dumped(browser, &desk, &page).expect(words);
        let sections =
            fs::read_to_string(desk.folder.join(&page)).unwrap().matches("<section").count();
        assert_eq!(dom.matches("<section").count(), sections, "{words}");
        assert!(!told.contains("CONSOLE"), "{words}: {told}");
    }
}

/// How many sheets of paper a page takes, and how many sections it has.
pub fn sheets_and_sections(browser: &str, desk: &Desk, page: &str) -> [usize; 2] {
    let paper = on_paper(browser, desk, page).expect("the page is printed");
    let paper = String::from_utf8_lossy(&paper);
    let sheets = paper.matches("/Type /Page").count() - paper.matches("/Type /Pages").count();
    let text = fs::read_to_string(desk.folder.join(page)).unwrap();
    [sheets, text.matches("<section").count()]
}

#[test]
fn every_section_is_a_sheet_of_paper() {
    let Some(browser) = browser("that pages fit on paper") else { return };
    let desk = desk("browser paper");
    for (place, (_, words)) in PAGES.iter().enumerate() {
        let [sheets, sections] = sheets_and_sections(browser, &desk, &format!("page-{place}.html"));
        assert_eq!(sheets, sections, "{words}");
    }
}

/// Eight numbers that fall by one from this one on.
fn eight(first: u32) -> String {
    (0..8).map(|place| (first - place).to_string()).collect::<Vec<String>>().join(",")
}

#[test]
fn eight_rows_and_columns_near_2_to_the_32_are_a_sheet_of_paper_each() {
    let Some(browser) = browser("that large sheets fit on paper") else { return };
    let desk = Desk::new("browser large paper");
    let entries = ["4,9,16,25,36,49,64,81"; 8].join("/");
    let (x, k) = (eight(2_147_483_542), eight(2_147_483_442));
    for (name, made) in [
        ("exponent", format!("table={entries} m=4294967087 q=2147483543 K=65536 x={x}")),
        ("root", format!("root m=4294967291 e=65537 K=65536 x={x}")),
    ] {
        let printed = desk.print(&format!(
            "dimkhoros make {made} -o {name}.bin && dimkhoros lecture {name}.bin x={x} k={k} c=65535 c=65533 -o {name}.html"
        ));
        assert!(printed.contains("html has "), "{printed}");
        let [sheets, sections] = sheets_and_sections(browser, &desk, &format!("{name}.html"));
        assert_eq!(sheets, sections, "{name}");
    }
}
