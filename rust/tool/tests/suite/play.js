// Plays all games of a page by clicks and keys, and writes what stands on the slides into the page, a line for each look.
const log = [];

// Writes down all values that a slide shows, under the name of the look.
function see(id, look, more = "") {
  const values = [...document.querySelectorAll(`#${id} [data-value]`)];
  const seen = values.map((element) => element.dataset.value + "=" + element.textContent.replaceAll("\n", "/"));
  log.push([look + more, ...seen].join(";"));
}

// Presses an element of a slide, by a selector and its place among those.
function press(id, selector, place = 0) {
  document.querySelectorAll(`#${id} ${selector}`)[place].click();
}

// Takes the entry of a choice, which is a button or an option of a list.
function choose(id, name, place) {
  const list = document.querySelector(`#${id} select[data-choice="${name}"]`);
  if (!list) return press(id, `[data-choice="${name}"]`, place);
  list.value = String(place);
  list.parentElement.querySelector("button").click();
}

// How many entries a choice has.
function count(id, name) {
  const list = document.querySelector(`#${id} select[data-choice="${name}"]`);
  return list ? list.options.length : document.querySelectorAll(`#${id} [data-choice="${name}"]`).length;
}

const is = (id) => document.getElementById(id) !== null;
const visible = () => document.body.innerText;

// Each challenge in turn, and each guess.
function vic(games) {
  const all = count("play-vic", "c");
  for (let game = 0; game < games; game += 1) {
    choose("play-vic", "c", game % all);
    see("play-vic", "vic-sent");
    press("play-vic", "button.main");
    see("play-vic", "vic");
    const guesses = document.querySelectorAll("#play-vic [data-guess]").length;
    press("play-vic", "[data-guess]", game % guesses);
    see("play-vic", "vic-told", ";guess=" + (game % guesses));
    press("play-vic", "button.main");
  }
  press("play-vic", ".foot button");
  see("play-vic", "vic-many");
}

// With the box, with any response, and without an answer.
function peggy(games) {
  for (let game = 0; game < games; game += 1) {
    const box = document.querySelector("#play-peggy button.main") !== null;
    const own = box && game % 3 === 0;
    if (own) {
      press("play-peggy", "button.main");
      choose("play-peggy", "k", game % count("play-peggy", "k"));
    } else {
      press("play-peggy", ".choice button", box ? 1 : 0);
      choose("play-peggy", "t", (game * 5) % count("play-peggy", "t"));
    }
    press("play-peggy", "button.main");
    if (own) press("play-peggy", "button.main");
    else if (game % 3 === 1) choose("play-peggy", "r", (game * 7) % count("play-peggy", "r"));
    else press("play-peggy", ".choice:last-child button:last-child");
    see("play-peggy", "peggy", own ? ";box=1" : "");
    press("play-peggy", "button.main");
  }
}

// Every two cells of one commitment that the grid shows, at most so many.
function extractor(most) {
  const cells = [...document.querySelectorAll("#play-extractor [data-cell]")];
  let pairs = 0;
  for (const one of cells) {
    for (const other of cells) {
      const fits = one.dataset.t === other.dataset.t && one.dataset.cell.split("-")[0] !== other.dataset.cell.split("-")[0];
      if (!fits || pairs >= most) continue;
      pairs += 1;
      one.click();
      other.click();
      see("play-extractor", "extractor", ";cells=" + one.dataset.cell + "-" + other.dataset.cell);
    }
  }
}

function rewind(games) {
  for (let game = 0; game < games; game += 1) {
    choose("play-rewind", "c", 1);
    press("play-rewind", "button.main");
    choose("play-rewind", "d", 0);
    see("play-rewind", "rewind");
    press("play-rewind", "button.main");
  }
}

function simulator(presses) {
  const slider = document.getElementById("slider");
  for (const c of [Number(slider.max), 1]) {
    slider.value = String(c);
    slider.dispatchEvent(new Event("input", { bubbles: true }));
    const all = count("play-simulator", "r");
    for (let r = 0; r < Math.min(presses, all); r += 1) {
      choose("play-simulator", "r", (r * 7) % all);
      see("play-simulator", "simulator");
    }
    press("play-simulator", "button.main");
    see("play-simulator", "full");
    for (const list of document.querySelectorAll("#play-simulator [data-list]")) {
      const rounds = list.textContent.split("\n").map((round) => round.replace(" =", ""));
      log.push(["list", "name=" + list.dataset.list, "slider=" + slider.value, ...rounds.map((round) => "round=" + round)].join(";"));
    }
  }
}

function team(games) {
  for (let game = 0; game < games; game += 1) {
    see("play-team", "team-sent");
    choose("play-team", "c", game % count("play-team", "c"));
    see("play-team", "team");
    press("play-team", "[data-guess]", game % 3);
    see("play-team", "team-told", ";guess=" + (game % 3));
    press("play-team", "button.main");
  }
}

function pair(games) {
  for (let game = 0; game < games; game += 1) {
    const c = game % count("play-or", "c");
    choose("play-or", "c", c);
    see("play-or", "or");
    press("play-or", "[data-guess]", game % document.querySelectorAll("#play-or [data-guess]").length);
    see("play-or", "or-told", ";guess=" + (game % 2));
    if (game % 2) {
      press("play-or", "button.main");
      continue;
    }
    press("play-or", ".choice button", 1);
    choose("play-or", "d", c ? 0 : 1);
    see("play-or", "or-rewound");
    press("play-or", "button.main");
  }
}

// Whether x is to be seen, and which sections are not.
function look(name) {
  const hidden = [...document.querySelectorAll("section")].filter((section) => section.hidden).map((section) => section.id);
  log.push([name, "x=" + (visible().match(/x[01]?\s*=\s*\(?[0-9][^;\n]*/g) || []).join("|"), "hidden=" + hidden.join(",")].join(";"));
}

look("start");
if (is("play-vic")) vic(33);
if (is("play-peggy")) peggy(12);
if (is("play-simulator")) simulator(40);
if (is("play-team")) team(12);
look("before");
if (is("play-extractor")) {
  extractor(1500);
  rewind(6);
}
if (is("play-or")) pair(12);
look("after");
const wide = [...document.querySelectorAll("section.play")].filter((section) => section.scrollWidth > section.clientWidth);
log.push("wide;" + wide.map((section) => section.id).join(","));
document.body.append(Object.assign(document.createElement("pre"), { id: "log", textContent: log.join("\n") }));
