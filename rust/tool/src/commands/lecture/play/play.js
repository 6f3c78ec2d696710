// The games of a lecture page. Every commitment, answer, verdict and witness stands in the data, where the library put it when
// the page was made. This script draws which entry is played, looks it up and shows it. Its arithmetic is on places in lists.
"use strict";
(() => {
  const data = JSON.parse(document.getElementById("data").textContent);
  const main = document.querySelector("main");

  // The elements of the page.

  // An element with attributes, listeners and children. A child is an element or a text.
  function make(name, attributes, ...children) {
    const element = document.createElement(name);
    for (const [key, value] of Object.entries(attributes)) {
      if (typeof value === "function") element.addEventListener(key, value);
      else if (value === true) element.setAttribute(key, "");
      else if (value !== false) element.setAttribute(key, value);
    }
    element.append(...children);
    return element;
  }

  // A letter of a formula, and what is raised.
  const letter = (name) => make("i", {}, name);
  const raised = (...children) => make("sup", {}, ...children);
  const lowered = (...children) => make("sub", {}, ...children);

  // A value that was looked up, with the name under which tests find it.
  const value = (name, text) => make("b", { "data-value": name }, String(text));

  // Words that stay on one line.
  const together = (...children) => make("span", { class: "together" }, ...children);

  // A letter, with an index if it has one, and its value, under a name of its own if it is not theirs.
  function equation(name, text, index = "", key = name + index) {
    return together(letter(name), ...(index ? [lowered(index)] : []), " = ", value(key, text));
  }

  // A paragraph.
  const line = (...children) => make("p", {}, ...children);

  // A button. The main button of a slide is the one that the space bar presses.
  function button(words, press, attributes = {}) {
    return make("button", { type: "button", click: press, ...attributes }, words);
  }

  // Puts these children in the place of all others.
  const show = (element, ...children) => element.replaceChildren(...children);

  // A slide with a heading, and with the page's reminder.
  function slide(id, heading, ...children) {
    const reminder = document.querySelector(".reminder");
    const title = make("h2", { id: id + "-heading" }, heading);
    const header = make("header", {}, title);
    if (reminder) header.append(reminder.cloneNode(true));
    return make("section", { id, class: "play", "aria-labelledby": id + "-heading", tabindex: "-1" }, header, ...children);
  }

  // The most entries that are buttons. More are a list to choose from.
  const MOST_BUTTONS = 130;

  // The most buttons that are all to be seen. More are scrolled.
  const MOST_OPEN = 36;

  // A choice of one of these words, which goes to `chosen` by its place.
  function choice(label, words, chosen, name) {
    if (words.length <= MOST_BUTTONS) {
      const buttons = words.map((word, place) => button(word, () => chosen(place), { "data-choice": name, class: "small" }));
      const size = words.length > MOST_OPEN ? "choice many" : "choice";
      return make("div", { class: size, role: "group", "aria-label": label }, make("span", { class: "label" }, label), ...buttons);
    }
    const options = words.map((word, place) => make("option", { value: place }, word));
    const list = make("select", { "data-choice": name, "aria-label": label }, ...options);
    const take = button("take", () => chosen(Number(list.value)), { class: "small" });
    return make("div", { class: "choice" }, make("span", { class: "label" }, label), list, take);
  }

  // A place of a list, by chance.
  const draw = (count) => Math.floor(Math.random() * count);

  // The data.

  const DIGITS = "ABCDEFGHIJKLMNOPQRSTUVWXYZabcdefghijklmnopqrstuvwxyz0123456789-_";
  const DIGIT = new Map([...DIGITS].map((digit, place) => [digit, place]));

  // The places of a packed list, whose entries are places of a list of `count`.
  function unpacked(list, count) {
    let width = 1;
    while (64 ** width < count) width += 1;
    const places = new Uint32Array(list.length / width);
    for (let at = 0; at < list.length; at += 1) {
      const place = Math.floor(at / width);
      places[place] = places[place] * 64 + DIGIT.get(list[at]);
    }
    return places;
  }

  // A list of a table. It is unpacked when it is first asked for.
  function row(table, at, count) {
    if (typeof table[at] === "string") table[at] = unpacked(table[at], count);
    return table[at];
  }

  // The place of the commitment with which Vic accepts a challenge and a response.
  const commitment = (c, r) => row(data.commitments, c, data.elements.length)[r];

  // The place of Peggy's response to a challenge with a nonce.
  const answer = (c, k) => row(data.answers, c, data.responses.length)[k];

  // The responses with which a commitment answers a challenge, rising.
  function answering(t, c) {
    return data.responses.map((_, r) => r).filter((r) => commitment(c, r) === t);
  }

  // An element, one value or a tuple.
  const element = (t) => data.elements[t].length === 1 ? String(data.elements[t][0]) : "(" + data.elements[t].join(", ") + ")";

  // The challenges in words.
  const challenges = (count) => Array.from({ length: count }, (_, c) => String(c));

  // What all games share.

  // A verdict in words and with a sign, which do not need colour.
  function verdict(accepted) {
    const words = accepted ? "✓ accepted" : "✗ rejected";
    return make("strong", { class: accepted ? "verdict yes" : "verdict no", "data-value": "verdict" }, words);
  }

  // Vic's check as a table: both sides of each row. The index is that of a player or side, or empty, and so is the challenge's.
  function checked(accepted, rows, index = "", own = "") {
    const left = ["[", letter("r"), lowered(index), "]"];
    const right = [letter("t"), lowered(index), " · ", letter("z"), lowered(index), raised(letter("c"), lowered(own))];
    const head = make("tr", {}, ...["row", left, right, ""].map((words) => make("th", { scope: "col" }, ...[words].flat())));
    const body = rows.map(([one, other], row) => make("tr", {},
      make("th", { scope: "row" }, String(row)),
      make("td", {}, value("left", one)), make("td", {}, value("right", other)),
      make("td", {}, one === other ? "equal" : "differ")));
    const table = make("table", { class: "figures" }, make("thead", {}, head), make("tbody", {}, ...body));
    return make("div", { class: "check" }, table, line("Vic: ", verdict(accepted)));
  }

  // The check of an accepted cell: both sides are [r], which is the commitment of the challenge 0.
  function accepted(r) {
    const image = data.elements[commitment(0, r)];
    return checked(true, image.map((number) => [number, number]));
  }

  // Shows the slides that have the witness, which are hidden until a class has found it.
  function reveal() {
    for (const section of main.querySelectorAll("section[data-late]")) section.hidden = false;
  }

  // A score of guesses.
  function score() {
    const text = make("p", { class: "score", role: "status" });
    const count = { right: 0, all: 0 };
    const told = () => show(text, "Your guesses: ", value("right", count.right), " right of ", value("all", count.all), ".");
    told();
    return {
      text,
      add(right) {
        count.all += 1;
        if (right) count.right += 1;
        told();
      },
    };
  }

  // The buttons of a guess. They are gone after it.
  function guesses(question, answers, guessed) {
    const place = make("div", { class: "choice", role: "group", "aria-label": question });
    const buttons = answers.map(([key, words]) => button(words, () => guessed(key), { "data-guess": key }));
    place.append(make("span", { class: "label" }, question), ...buttons);
    return place;
  }

  // A class plays Vic.

  function playVic() {
    const count = data.challenges;
    const steps = make("div", { class: "steps", "aria-live": "polite" });
    const points = score();
    const cheats = { through: 0, all: 0 };
    const rate = make("p", { class: "score", role: "status" });
    const kinds = data.answers ? ["honest", "hope", "simulator"] : ["hope", "simulator"];
    const names = {
      honest: "an honest Peggy: she knows x and did not see the slip",
      hope: "a Peggy without a witness: she hoped for one challenge",
      simulator: "the simulator: she saw the slip before she sent t",
    };

    // How often a Peggy without a witness got through.
    function tell() {
      show(rate, "Without a witness and without the slip: accepted in ", value("through", cheats.through), " of ",
        value("cheats", cheats.all), " games. One challenge is 1 of ", value("K", count), ".");
    }

    // The round of a Peggy of a kind on a challenge that she knows only if she is the simulator.
    function round(kind, c) {
      if (kind === "honest") {
        const k = draw(data.responses.length);
        return { t: commitment(0, k), r: answer(c, k), check: null };
      }
      if (kind === "simulator") {
        const r = draw(data.responses.length);
        return { t: commitment(c, r), r, check: null };
      }
      const hope = data.hopes[draw(data.hopes.length)];
      return { t: commitment(hope.challenge, hope.response), r: hope.response, check: hope.checks[c], hope: hope.challenge };
    }

    function start() {
      const drawn = button("Draw a challenge", () => chosen(draw(count)), { class: "main" });
      show(steps, line("1. Write a challenge on a slip that Peggy must not see."),
        choice("c", challenges(count), chosen, "c"), line(drawn));
    }

    function chosen(c) {
      const kind = kinds[draw(kinds.length)];
      const played = round(kind, c);
      show(steps, line("1. On your slip: ", equation("c", c), "."),
        line("2. Peggy sends ", equation("t", element(played.t)), "."),
        line(button("Give her the challenge", () => given(kind, c, played), { class: "main" })));
      steps.querySelector(".main").focus();
    }

    function given(kind, c, played) {
      const check = played.check ? checked(...played.check) : accepted(played.r);
      if (kind === "hope") {
        cheats.all += 1;
        if (played.check[0]) cheats.through += 1;
      }
      const ask = make("div", {});
      const answers = kinds.map((key) => [key, { honest: "honest", hope: "hopes for one challenge", simulator: "saw the slip" }[key]]);
      show(ask, guesses("Which Peggy was it?", answers, (key) => {
        points.add(key === kind);
        tell();
        const more = kind === "hope" ? [" She had prepared ", equation("c", played.hope, "", "hope"), "."] : [];
        show(ask, line(key === kind ? "Right. " : "No. ", "It was ", value("kind", names[kind]), ".", ...more),
          line(button("Next game", start, { class: "main" })));
        ask.querySelector(".main").focus();
      }));
      show(steps, line("1. Your challenge: ", equation("c", c), ". 2. She sent ", equation("t", element(played.t)), "."),
        line("3. She answers ", equation("r", data.responses[played.r]), "."), check, ask);
    }

    // Many games of a Peggy without a witness at once.
    function many() {
      for (let game = 0; game < 100; game += 1) {
        const c = draw(count);
        cheats.all += 1;
        if (round("hope", c).check[0]) cheats.through += 1;
      }
      tell();
    }

    tell();
    start();
    return slide("play-vic", "Play Vic: who is Peggy?", steps,
      make("div", { class: "foot" }, points.text, rate, line(button("100 Peggys without a witness", many))));
  }

  // A class plays Peggy.

  function playPeggy() {
    const steps = make("div", { class: "steps", "aria-live": "polite" });
    const count = data.challenges;

    function start() {
      const without = button("We have no witness: name t", () => name(), {});
      const buttons = data.answers
        ? [button("Our box has the witness: choose k", () => nonce(), { class: "main" }), without] : [without];
      show(steps, line("1. You are Peggy."), make("div", { class: "choice" }, ...buttons));
    }

    function nonce() {
      show(steps, line("1. Your box has the witness. Choose the nonce."),
        choice("k", data.responses, (k) => hear(commitment(0, k), k), "k"));
    }

    function name() {
      show(steps, line("1. You have no witness. Name a commitment."),
        choice("t", data.elements.map((_, t) => element(t)), (t) => hear(t, null), "t"));
    }

    function hear(t, k) {
      show(steps, line("1. You send ", equation("t", element(t)), "."),
        line(button("Hear Vic's challenge", () => asked(t, k, draw(count)), { class: "main" })));
      steps.querySelector(".main").focus();
    }

    function asked(t, k, c) {
      const end = (r) => ended(t, c, r);
      const box = k === null ? [] : [button("Let the box compute k and x", () => end(answer(c, k)), { class: "main" })];
      show(steps, line("1. You sent ", equation("t", element(t)), ". 2. Vic sends ", equation("c", c), "."),
        line("3. Find a response."), choice("r", data.responses, end, "r"),
        make("div", { class: "choice" }, ...box, button("We cannot answer", () => end(null))));
    }

    // The smallest answer to each challenge, in lines as `dimkhoros game` has them.
    function lines(t) {
      const all = challenges(count).map((_, c) => [c, answering(t, c)[0]]).filter(([, r]) => r !== undefined);
      const words = all.map(([c, r]) => c + " " + data.responses[r].replace(/[(),]/g, ""));
      return [all.length, words.length ? words.join("\n") : "none"];
    }

    function ended(t, c, r) {
      const answers = answering(t, c);
      const sent = line("1. You sent ", equation("t", element(t)), ". 2. Vic sent ", equation("c", c), ".");
      const right = answers.length ? data.elements[commitment(0, answers[0])] : null;
      const left = r === null ? null : data.elements[commitment(0, r)];
      const check = r === null ? line("3. You did not answer.") : line("3. You answered ", equation("r", data.responses[r]), ". ",
        "[", letter("r"), "] = ", value("left", left.join(", ")), right ? " and " : "", ...(right
          ? [letter("t"), " · ", letter("z"), raised("c"), " = ", value("right", right.join(", "))] : []), ". Vic: ",
        verdict(answers.includes(r)));
      const smallest = answers.length
        ? line("The smallest answer is ", equation("r", data.responses[answers[0]], "", "smallest"), ".")
        : line("No response answers this challenge.");
      const [found, text] = lines(t);
      const told = line("This commitment answers ", value("answers", found), " of the ", value("K", count),
        " challenges (challenge, smallest response):");
      show(steps, sent, check, smallest, told, make("pre", { tabindex: "0", "data-value": "lines" }, text),
        line(button("Next game", start, { class: "main" })));
      steps.querySelector(".main").focus();
    }

    start();
    return slide("play-peggy", "Play Peggy: can you answer?", steps);
  }

  // The extractor.

  // The place of the witness that two cells of one commitment give. If there is one witness, it is this.
  function extracted([c, r], [d, s]) {
    if (data.witnesses.length === 1) return 0;
    if (c > d) return extracted([d, s], [c, r]);
    const count = data.challenges;
    const before = c * count - (c * (c + 1)) / 2;
    const rank = answering(commitment(c, r), d).indexOf(s);
    return row(data.pairs, before + d - c - 1, data.witnesses.length)[r * data.witnesses.length + rank];
  }

  // The steps of the extractor on two cells. The witness is shown from here on.
  function extraction(first, second) {
    const [[c, r], [d, s]] = [first, second];
    const [difference, a, b] = data.differences[c - d + data.challenges - 1];
    const x = data.witnesses[extracted(first, second)];
    const [one, other] = [data.responses[r], data.responses[s]];
    const bare = (tuple) => tuple.replace(/^\(|\)$/g, "");
    const bracketed = (number) => number.startsWith("−") ? "(" + number + ")" : number;
    const divided = data.exponent ? one + " − " + other : one + " / " + other;
    const last = data.exponent
      ? [bracketed(b), " · (", divided, ") mod ", String(data.order)]
      : [data.statement, raised(a), " · (", divided, ")", raised(b), " mod ", String(data.modulus)];
    reveal();
    return make("ol", { class: "extraction" },
      make("li", {}, "Both rounds are accepted: ", together("[", bare(one), "] = ", letter("t"), " · ", letter("z"), raised(String(c))),
        " and ", together("[", bare(other), "] = ", letter("t"), " · ", letter("z"), raised(String(d))), " with ",
        equation("t", element(commitment(c, r))), "."),
      make("li", {}, "Divide: [", divided, "] = ", letter("z"), raised(value("difference", difference)), "."),
      make("li", {}, String(data.order), " · ", bracketed(a), " + ", bracketed(difference), " · ", bracketed(b), " = 1, so ",
        equation("a", a), " and ", equation("b", b), "."),
      make("li", {}, letter("x"), " = ", ...last, " = ", value("x", x), "."),
      make("li", {}, "[", bare(x), "] = ", value("z", data.statement), " = ", letter("z"), "."));
  }

  // The largest grid that is shown whole.
  const GRID = { challenges: 13, responses: 24 };

  function playExtractor() {
    const steps = make("div", { class: "steps", "aria-live": "polite" });
    const told = make("p", { role: "status" });
    const grid = make("div", { class: "grid" });
    const small = data.challenges <= GRID.challenges && data.responses.length <= GRID.responses;
    let first = null;

    // Marks a cell with a number, which does not need colour.
    function mark(cell, number) {
      const button = grid.querySelector(`[data-cell="${cell.join("-")}"]`);
      if (button) button.dataset.mark = number;
    }

    // Marks all cells of a commitment.
    function frame(t) {
      for (const button of grid.querySelectorAll("[data-cell]")) {
        delete button.dataset.mark;
        button.classList.toggle("same", small && Number(button.dataset.t) === t);
      }
    }

    function press(c, r) {
      const t = commitment(c, r);
      const fits = first && first[0] !== c && commitment(...first) === t;
      if (!fits) {
        const again = first && commitment(...first) !== t ? "That is another commitment. " : "";
        first = [c, r];
        frame(t);
        mark(first, "1");
        show(steps);
        show(told, again, "Take a second cell with ", equation("t", element(t)), " in another row.");
        return;
      }
      mark([c, r], "2");
      show(told, "Two rounds with one commitment:");
      show(steps, extraction(first, [c, r]));
      first = null;
    }

    function cell(c, r, words) {
      const t = commitment(c, r);
      const label = "challenge " + c + ", response " + data.responses[r] + ", commitment " + element(t);
      return button(words, () => press(c, r), { class: "cell", "data-cell": c + "-" + r, "data-t": t, "aria-label": label });
    }

    function table(heads, rows) {
      const head = make("tr", {}, ...heads.map((words) => make("th", { scope: "col" }, words)));
      const row = ([name, ...cells]) => make("tr", {}, make("th", { scope: "row" }, name), ...cells.map((cell) => make("td", {}, cell)));
      const body = rows.map(row);
      return make("table", {}, make("thead", {}, head), make("tbody", {}, ...body));
    }

    function whole() {
      const heads = ["c \\ r", ...data.responses];
      const row = (name, c) => [name, ...data.responses.map((_, r) => cell(c, r, element(commitment(c, r))))];
      show(grid, table(heads, challenges(data.challenges).map(row)));
    }

    // The cells of one commitment, if the whole grid is too large.
    const MOST = { rows: 11, cells: 5 };
    function part(t) {
      const shown = challenges(data.challenges).slice(0, MOST.rows);
      const rows = shown.map((name, c) => [name, ...answering(t, c).slice(0, MOST.cells).map((r) => cell(c, r, data.responses[r]))]);
      first = null;
      show(steps);
      show(told, "Responses with which ", equation("t", element(t)), " answers challenges. Take two in different rows.");
      show(grid, table(["c", "r"], rows));
    }

    const body = [told, make("div", { class: "sides" }, grid, steps)];
    if (small) {
      show(told, "Each cell is the commitment of an accepted round. Take two cells with one commitment in different rows.");
      whole();
    } else {
      const named = [...new Set(data.responses.map((_, r) => commitment(0, r)))].sort((one, other) => one - other);
      body.unshift(choice("t", named.map(element), (place) => part(named[place]), "t"));
      part(named[Math.min(3, named.length - 1)]);
    }
    return slide("play-extractor", "The extractor: two cells of one commitment", ...body);
  }

  function playRewind() {
    const steps = make("div", { class: "steps", "aria-live": "polite" });

    function start() {
      const k = draw(data.responses.length);
      show(steps, line("1. Peggy sends ", equation("t", element(commitment(0, k))), ". Give her a challenge."),
        choice("c", challenges(data.challenges), (c) => again(k, c), "c"));
    }

    function again(k, c) {
      const rewind = make("div", {});
      show(rewind, line(button("Rewind Peggy", () => {
        show(rewind, line("3. Peggy was switched off and on. She has the same nonce and sends ", equation("t", element(commitment(0, k))),
          " again. Give her another challenge."),
          choice("c′", challenges(data.challenges), (d) => d === c || ended(k, c, d), "d"));
      }, { class: "main" })));
      show(steps, line("1. Peggy sent ", equation("t", element(commitment(0, k))), ". 2. To ", equation("c", c),
        " she answers ", equation("r", data.responses[answer(c, k)]), "."), rewind);
      steps.querySelector(".main").focus();
    }

    function ended(k, c, d) {
      show(steps, line("She answered ", equation("c", c), " with ", value("r", data.responses[answer(c, k)]), " and ",
        letter("c′"), " = ", value("d", d), " with ", value("s", data.responses[answer(d, k)]), ", both for one nonce."),
        extraction([c, answer(c, k)], [d, answer(d, k)]), line(button("Once more", start, { class: "main" })));
    }

    start();
    return slide("play-rewind", "Rewind Peggy: the same nonce, another challenge", steps);
  }

  // The simulator.

  function playSimulator() {
    const count = data.responses.length;
    const told = make("p", { role: "status" });
    const lists = make("div", { class: "lists" });
    const last = data.challenges - 1;
    const slider = make("input", { type: "range", min: 0, max: last, value: Math.min(3, last), id: "slider", input: restart });
    const shown = make("output", { for: "slider", "data-value": "slider" });
    let simulated, honest, nonces;

    function restart() {
      shown.textContent = slider.value;
      simulated = new Set();
      honest = new Set();
      nonces = data.responses.map((_, k) => k);
      show(told, "Choose a response: the simulator computes t. An honest Peggy makes a round beside it.");
      tell();
    }

    // A round, with its commitment from the table.
    const round = (r) => "(" + element(commitment(Number(slider.value), r)) + ", " + slider.value + ", " + data.responses[r] + ")";

    function list(title, name, rounds, other) {
      const rows = [...rounds].sort((one, two) => one - two).map((r) => round(r) + (other.has(r) ? " =" : ""));
      const head = make("h3", {}, title + ": ", value(name + "-count", rounds.size), " of " + count);
      return make("div", {}, head, make("pre", { "data-list": name, tabindex: "0", "aria-label": title }, rows.join("\n")));
    }

    function tell() {
      const all = [list("simulated", "simulated", simulated, honest)];
      if (data.answers) all.unshift(list("honest", "honest", honest, simulated));
      show(lists, ...all);
    }

    // A simulated round, and an honest one with a nonce that was not used.
    function add(r) {
      simulated.add(r);
      if (data.answers && nonces.length) {
        const k = nonces.splice(draw(nonces.length), 1)[0];
        honest.add(answer(Number(slider.value), k));
      }
    }

    function press(r) {
      add(r);
      show(told, "The simulator: ", equation("c", slider.value), " and ", equation("r", data.responses[r]), " give ",
        equation("t", element(commitment(Number(slider.value), r))), ".");
      end();
    }

    function fill() {
      for (let r = 0; r < count; r += 1) add(r);
      end();
    }

    function end() {
      const same = simulated.size === count && honest.size === count && [...honest].every((r) => simulated.has(r));
      if (same) show(told, "Both lists have all ", value("count", count), " rounds: they are the same list.");
      else if (simulated.size === count && !data.answers) {
        show(told, "All ", value("count", count), " rounds are accepted, and nobody knows a witness.");
      }
      tell();
    }

    const controls = make("div", { class: "choice" }, make("label", { for: "slider", class: "label" }, "c"), slider, shown,
      button("Fill both lists", fill, { class: "main" }));
    restart();
    return slide("play-simulator", "The simulator: first c and r, then t", controls, choice("r", data.responses, press, "r"), told, lists);
  }

  // A team of two, one of whom can cheat.

  function playTeam() {
    const steps = make("div", { class: "steps", "aria-live": "polite" });
    const points = score();
    const names = ["nobody", "player 1", "player 2"];

    function start() {
      const game = data.teams[draw(data.teams.length)];
      const [t1, t2, t] = game.commitments;
      show(steps, line("1. Each player has a part of ", letter("x"), ". The images of the parts are ", value("z1", game.images[0]), " and ",
        value("z2", game.images[1]), ". The players send ", value("t1", t1), " and ", value("t2", t2), ", joined ", equation("t", t), "."),
        line("2. Give both the same challenge."), choice("c", challenges(data.challenges), (c) => given(game, c), "c"),
        line(button("Draw a challenge", () => given(game, draw(data.challenges)), { class: "main" })));
    }

    function given(game, c) {
      const [r1, r2, r, first, second, whole] = game.answers[c];
      const ask = make("div", {});
      show(ask, guesses("Who cheated?", names.map((name, player) => [String(player), name]), (key) => {
        const right = Number(key) === game.cheat;
        points.add(right);
        const more = game.cheat ? [", who had prepared ", equation("c", game.prepared, "", "prepared")] : [];
        show(ask, line(right ? "Right: " : "No: ", value("cheat", names[game.cheat]), ...more, ". The parts under their own images:"),
          make("div", { class: "sides" }, checked(...first, "1"), checked(...second, "2")),
          line(button("Next game", start, { class: "main" })));
        ask.querySelector(".main").focus();
      }));
      show(steps, line("To ", equation("c", c), " they answer ", value("r1", r1), " and ", value("r2", r2), ", joined ",
        equation("r", r), "."), checked(...whole), ask);
    }

    start();
    return slide("play-team", "A team of two: one of them can cheat", steps, make("div", { class: "foot" }, points.text));
  }

  // The OR proof.

  function playPair() {
    const { games, witnesses } = data.pair;
    const count = data.pair.challenges;
    const steps = make("div", { class: "steps", "aria-live": "polite" });
    const points = score();

    function start() {
      const game = games[draw(games.length)];
      const [t0, t1] = game.commitments;
      show(steps, line("1. Peggy knows one of two witnesses. She sends ", equation("t", t0, "0"), " and ", equation("t", t1, "1"),
        ". Give her a challenge."),
        choice("c", challenges(count), (c) => given(game, c), "c"),
        line(button("Draw a challenge", () => given(game, draw(count)), { class: "main" })));
    }

    // Her commitments in words.
    function sent(game) {
      const [t0, t1] = game.commitments;
      return line("She sent ", equation("t", t0, "0"), " and ", equation("t", t1, "1"), ".");
    }

    // Her answer in words.
    function answered(game, c, index) {
      const [c0, r0, c1, r1] = game.answers[c];
      const named = (name, text, side) => equation(name, text, side, name + side + index);
      const side = (number, own, r) => [named("c", own, number), ", ", named("r", r, number)];
      return line(equation("c", c, "", "c" + index), ": ", ...side("0", c0, r0), "; ", ...side("1", c1, r1), ".");
    }

    function given(game, c) {
      const [, , , , first, second] = game.answers[c];
      const ask = make("div", {});
      const sides = ["0", "1"].filter((side) => witnesses[Number(side)] !== null);
      show(ask, guesses("Which witness does she know?", sides.map((side) => [side, "x" + side]), (key) => {
        const right = Number(key) === game.side;
        points.add(right);
        show(ask, line(right ? "Right: " : "No: ", "she knows x", value("side", game.side),
          ". Each round of one holder is a round of the other. So your guess is the toss of a coin."),
          make("div", { class: "choice" }, button("Next game", start, { class: "main" }), button("Rewind Peggy", () => rewound(game, c))));
        ask.querySelector(".main").focus();
      }));
      show(steps, sent(game), answered(game, c, ""),
        make("div", { class: "sides" }, checked(...first, "0", "0"), checked(...second, "1", "1")), ask);
    }

    function rewound(game, c) {
      show(steps, sent(game), answered(game, c, ""),
        line("Peggy has the same nonce and sends the same commitments. Give her another challenge."),
        choice("c′", challenges(count), (d) => d === c || ended(game, c, d), "d"));
    }

    function ended(game, c, d) {
      reveal();
      show(steps, sent(game), answered(game, c, ""), answered(game, d, "′"),
        line("The challenge of side ", value("side", game.side), " differs, and the two rounds of this side give ",
          equation("x", witnesses[game.side], String(game.side), "x"), "."), line(button("Next game", start, { class: "main" })));
    }

    start();
    return slide("play-or", "Which witness does Peggy know?", steps, make("div", { class: "foot" }, points.text));
  }

  // The slides and their keys.

  const today = [...main.querySelectorAll("section")];
  const late = today.findIndex((section) => /^(extractor|two-rounds|answers)/.test(section.id));
  const games = data.answers
    ? [playVic, playPeggy, playExtractor, playRewind, playSimulator, playTeam] : [playVic, playPeggy, playSimulator];
  const slides = (data.pair ? [playPair] : games).map((game) => game());
  for (const section of slides) today[late].before(section);
  if (data.hidden && (data.pair || data.answers)) {
    for (const section of today.slice(late)) {
      section.hidden = true;
      section.dataset.late = "";
    }
  }

  // The slide that is on the screen.
  function current(sections) {
    const distance = (section) => Math.abs(section.getBoundingClientRect().top);
    return sections.reduce((best, section) => distance(section) < distance(best) ? section : best);
  }

  // Goes a slide on or back.
  function move(step) {
    const sections = [...main.querySelectorAll("section:not([hidden])")];
    const next = sections[sections.indexOf(current(sections)) + step];
    if (!next) return;
    next.setAttribute("tabindex", "-1");
    next.scrollIntoView();
    next.focus({ preventScroll: true });
  }

  // Whether the focus is on something that has a use for a key itself.
  const isIn = (names) => document.activeElement && names.includes(document.activeElement.localName);

  // The digit keys give a challenge if they are few.
  function digit(key) {
    const open = current([...main.querySelectorAll("section:not([hidden])")]);
    const buttons = [...open.querySelectorAll('[data-choice="c"], [data-choice="d"]')].filter((button) => button.localName === "button");
    const button = buttons.find((button) => button.textContent === key);
    if (button) button.click();
  }

  const STEPS = { PageDown: 1, ArrowDown: 1, ArrowRight: 1, PageUp: -1, ArrowUp: -1, ArrowLeft: -1 };

  document.addEventListener("keydown", (event) => {
    if (event.ctrlKey || event.altKey || event.metaKey) return;
    const arrow = event.key.startsWith("Arrow");
    if (event.key in STEPS && !(arrow && isIn(["input", "select", "pre"]))) {
      event.preventDefault();
      move(STEPS[event.key]);
    } else if (event.key === " " && !isIn(["button", "input", "select"])) {
      const open = current([...main.querySelectorAll("section:not([hidden])")]);
      const press = open.querySelector("button.main");
      event.preventDefault();
      if (press) press.click();
      else move(1);
    } else if (/^[0-9]$/.test(event.key) && !isIn(["input", "select"])) {
      digit(event.key);
    }
  });
})();
